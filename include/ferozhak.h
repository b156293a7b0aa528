/* Ferozhak for C: judges a trace of transactions at one level, and says whether what was recorded may be promoted, or
   whether an order that somebody claims is lawful. examples/build.sh has the library proved and compiled, and writes it
   to target/staticlib/libferozhak.a, for x86-64; examples/daemon.c shows the first two calls at work. docs/FORMAT.md has
   the trace and the refusals, docs/READING.md the kinds and the reasons.

   Threads: no call keeps anything, allocates, or uses global data. Any number of threads may call at once.
   Overlap: no two of the buffers may overlap, nor may any of them overlap the trace or the claim.
   Stack:   a thread whose stack has FEROZHAK_STACK bytes can make any of the calls.
   Empty:   for an empty buffer, trace or claim the length is 0 and the pointer is any that is not NULL.
   Lists:   a trace with appends and list reads is judged by its single-value operations alone, which keep their numbers.
            One in which a key has single values and lists is refused with FEROZHAK_REFUSED_MIXED. */
#ifndef FEROZHAK_H
#define FEROZHAK_H

#include <stddef.h>
#include <stdint.h>

#ifdef __cplusplus
extern "C" {
#endif

/* The version of this header and of the archive that the same sources give. The first number grows where a program that
   keeps to this header would have to be changed, or would get another answer; the second where something is added. */
#define FEROZHAK_VERSION_MAJOR 2
#define FEROZHAK_VERSION_MINOR 0

/* What ferozhak_decide answers. 0 is none of them, so a variable that was never set promotes nothing. All three are true:
   compare with FEROZHAK_PROMOTE, never test for truth. */
enum {
    FEROZHAK_PROMOTE = 1, /* the level accepts the trace */
    FEROZHAK_HOLD = 2,    /* the level rejects it */
    FEROZHAK_NO_TRACE = 3 /* the call is refused */
};

/* What ferozhak_claim answers. 0 is none of them. All five are true: compare with FEROZHAK_CLAIM_YES, never test for
   truth. */
enum {
    FEROZHAK_CLAIM_YES = 1,        /* the claimed order is lawful at the level */
    FEROZHAK_CLAIM_NO_READ = 2,    /* a read is unclean, so no order is */
    FEROZHAK_CLAIM_NO_MEMBERS = 3, /* it has not just the committed transactions, each once, or 0 is not first */
    FEROZHAK_CLAIM_NO_PAIR = 4,    /* a forced pair stands the wrong way round */
    FEROZHAK_CLAIM_REFUSED = 5     /* the call is refused */
};

/* The levels, from the weakest to the strongest. */
enum {
    FEROZHAK_RC = 1, /* read committed */
    FEROZHAK_RA = 2, /* read atomicity */
    FEROZHAK_TCC = 3 /* transactional causal consistency */
};

/* Sizes in bytes that are always enough, so that buffers can be sized once; the longest that a trace can be; and the stack
   to give to a thread that calls. */
enum {
    FEROZHAK_FINDINGS_MAX = 6144,
    FEROZHAK_PAIRS_MAX = 65024,
    FEROZHAK_ORDER_MAX = 128,
    FEROZHAK_COUNTS = 20,
    FEROZHAK_CLAIM_NUMBERS = 20,
    FEROZHAK_TRACE_MAX = 32768,
    FEROZHAK_STACK = 65536
};

/* The counts: where each begins. They have 4 bytes each. */
enum {
    FEROZHAK_COUNT_FINDINGS = 0,
    FEROZHAK_COUNT_PAIRS = 4,
    FEROZHAK_COUNT_ORDER = 8,    /* length of the order */
    FEROZHAK_COUNT_REFUSAL = 12, /* number of the refusal, FEROZHAK_REFUSED_.. */
    FEROZHAK_COUNT_PLACE = 16    /* place of the refusal */
};

/* The numbers that come with the answer to a claim: where each begins. They have 4 bytes each. */
enum {
    FEROZHAK_CLAIM_OPERATION = 0, /* operation number of the read */
    FEROZHAK_CLAIM_FIRST = 4,     /* the pair's first */
    FEROZHAK_CLAIM_SECOND = 8,    /* the pair's second */
    FEROZHAK_CLAIM_REFUSAL = 12,  /* number of the refusal, FEROZHAK_REFUSED_.. */
    FEROZHAK_CLAIM_PLACE = 16     /* place of the refusal */
};

/* A finding, which is an unclean read: its size, and where its parts begin. */
enum {
    FEROZHAK_FINDING_SIZE = 6,
    FEROZHAK_FINDING_TRANSACTION = 0, /* 1 byte */
    FEROZHAK_FINDING_KIND = 1,        /* 1 byte, FEROZHAK_KIND_.. */
    FEROZHAK_FINDING_OPERATION = 2,   /* 2 bytes, number of the read */
    FEROZHAK_FINDING_WRITE = 4        /* 2 bytes, number of the write that the value came from, 0 where there is none */
};

/* A forced pair on a cycle: its size, and where its parts begin, 1 byte each. The last byte is 0. */
enum {
    FEROZHAK_PAIR_SIZE = 4,
    FEROZHAK_PAIR_FIRST = 0,
    FEROZHAK_PAIR_SECOND = 1,
    FEROZHAK_PAIR_REASONS = 2 /* a sum of FEROZHAK_REASON_.. */
};

/* The kinds of findings. The first one that fits is given. */
enum {
    FEROZHAK_KIND_THIN_AIR = 1,    /* nobody wrote the value */
    FEROZHAK_KIND_ABORTED = 2,     /* another transaction wrote it, and aborted */
    FEROZHAK_KIND_FUTURE = 3,      /* the reader wrote it, but later */
    FEROZHAK_KIND_NOT_MY_LAST = 4, /* the reader wrote it, and the key again before it read */
    FEROZHAK_KIND_NOT_MY_OWN = 5,  /* the reader had written the key, and read another's value or the initial one */
    FEROZHAK_KIND_INTERMEDIATE = 6 /* its writer wrote the key again */
};

/* The reasons of a pair: why its first has to stand before its second. Each that holds is in the sum. */
enum {
    FEROZHAK_REASON_START = 1,   /* the first is 0, the state before the trace */
    FEROZHAK_REASON_SESSION = 2, /* both are of one session, and the first opened first */
    FEROZHAK_REASON_READ = 4,    /* the second read from the first */
    FEROZHAK_REASON_RIVAL = 8    /* the level adds it: both wrote a key, and who read it from the second knew of the first */
};

/* The refusals. Of 2 to 11 and of 17 the place is a byte offset into the trace, of 12 to 14 the bytes that the buffer
   needs. */
enum {
    FEROZHAK_REFUSED_LEVEL = 1,       /* the level is none of the three; place 0 */
    FEROZHAK_REFUSED_LONG = 2,        /* the trace is longer than FEROZHAK_TRACE_MAX */
    FEROZHAK_REFUSED_CUT = 3,         /* the trace ends within a record, or without an end record */
    FEROZHAK_REFUSED_LENGTH = 4,      /* a record's length is below 6, or not its kind's */
    FEROZHAK_REFUSED_SERIAL = 5,      /* a serial does not follow */
    FEROZHAK_REFUSED_KIND = 6,        /* a record's kind is none */
    FEROZHAK_REFUSED_MISPLACED = 7,   /* a record stands where its kind may not */
    FEROZHAK_REFUSED_VALUE = 8,       /* a written or appended 0, a list too long, a wrong status, end number or edition */
    FEROZHAK_REFUSED_EXCESS = 9,      /* too many transactions, or too many operations */
    FEROZHAK_REFUSED_REPEATED = 10,   /* a write or an append has the key and value of an earlier one of its kind */
    FEROZHAK_REFUSED_BEHIND_END = 11, /* bytes follow the end record */
    FEROZHAK_REFUSED_FINDINGS = 12,   /* rejected, and the findings do not fit */
    FEROZHAK_REFUSED_PAIRS = 13,      /* rejected, and the pairs do not fit */
    FEROZHAK_REFUSED_ORDER = 14,      /* accepted, and the order does not fit */
    FEROZHAK_REFUSED_MIXED = 17       /* a key has single values and lists; the place is the first record that mixes them */
};

/* Judges a trace at a level, and answers FEROZHAK_PROMOTE, FEROZHAK_HOLD or FEROZHAK_NO_TRACE. All numbers of more than
   one byte are little-endian. Bytes behind what is written stay as they are.

   findings  On hold, FEROZHAK_FINDING_SIZE bytes for each unclean read, at most FEROZHAK_FINDINGS_MAX.
   pairs     On hold, FEROZHAK_PAIR_SIZE bytes for each forced pair on a cycle, at most FEROZHAK_PAIRS_MAX.
   order     On promote, a byte for each committed transaction, in the first order in which they can have committed, 0 first.
             At most FEROZHAK_ORDER_MAX bytes.
   counts    Always, five numbers, 0 where they do not apply. FEROZHAK_COUNTS bytes; in a shorter buffer those that fit
             whole.

   What is not named for an answer is not written. A level that is none of the three is refused, then bytes that are no
   trace; what comes with the verdict is refused last, where it does not fit into its buffer. Then the trace was judged, and
   a call with as many bytes as the place says tells more: the verdict, or, after FEROZHAK_REFUSED_FINDINGS, what the pairs
   need. */
uint32_t ferozhak_decide(const uint8_t *trace, size_t trace_length, uint32_t level,
                         uint8_t *findings, size_t findings_length, uint8_t *pairs, size_t pairs_length,
                         uint8_t *order, size_t order_length, uint8_t *counts, size_t counts_length);

/* Answers the strongest level that accepts the trace, FEROZHAK_TCC, FEROZHAK_RA or FEROZHAK_RC; 0 if none does, or if the
   bytes are no trace. */
uint32_t ferozhak_strongest(const uint8_t *trace, size_t trace_length);

/* Says whether a claimed order, a byte for each transaction, is lawful at a level: FEROZHAK_CLAIM_YES exactly if all reads
   are clean, every committed transaction stands in it once and no other, 0 first, and each forced pair stands the right way
   round. A no names the first of these that fails, in this order: FEROZHAK_CLAIM_NO_READ with the first unclean read,
   FEROZHAK_CLAIM_NO_MEMBERS, FEROZHAK_CLAIM_NO_PAIR with the pair that is least by its first and then by its second.

   claim     Any bytes, of any length. The order that ferozhak_decide writes on promote gets a yes at that level.
   numbers   Always, five numbers, little-endian, 0 where they do not apply. FEROZHAK_CLAIM_NUMBERS bytes; in a shorter
             buffer those that fit whole. Bytes behind what is written stay as they are.

   FEROZHAK_CLAIM_REFUSED comes before all else: a level that is none of the three, then bytes that are no trace, with
   refusals up to FEROZHAK_REFUSED_BEHIND_END, or FEROZHAK_REFUSED_MIXED. */
uint32_t ferozhak_claim(const uint8_t *trace, size_t trace_length, uint32_t level,
                        const uint8_t *claim, size_t claim_length,
                        uint8_t *numbers, size_t numbers_length);

#ifdef __cplusplus
}
#endif

#endif
