/* What the example uses of <dirent.h>, for x86-64 Linux. A name stands 19 bytes into its entry. */
#ifndef DIRENT_H
#define DIRENT_H
typedef struct directory DIR;
struct dirent {
    unsigned long d_ino;
    long d_off;
    unsigned short d_reclen;
    unsigned char d_type;
    char d_name[256];
};
DIR *opendir(const char *);
struct dirent *readdir(DIR *);
int closedir(DIR *);
#endif
