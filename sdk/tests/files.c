/* Asks POSIX's calls on files, and writes what they answer: the same text under Linux and in a run. Its last line has
   its words. It ends with 5. */
#define _GNU_SOURCE
#include <errno.h>
#include <fcntl.h>
#include <stdio.h>
#include <stdlib.h>
#include <string.h>
#include <sys/stat.h>
#include <time.h>
#include <unistd.h>

/* Numbers of faults differ, so their names are told. */
static const char *fault(int number)
{
    switch (number) {
    case EBADF: return "EBADF";
    case EEXIST: return "EEXIST";
    case EINVAL: return "EINVAL";
    case EISDIR: return "EISDIR";
    case ENOENT: return "ENOENT";
    case ENOTDIR: return "ENOTDIR";
    case ENOTEMPTY: return "ENOTEMPTY";
    default: return "another";
    }
}

static void tell(const char *what, long long result)
{
    printf("%s = %lld%s%s\n", what, result, result < 0 ? " " : "", result < 0 ? fault(errno) : "");
}

#define T(x) (errno = 0, tell(#x, (long long)(x)))

static struct stat status;
static char b[100];

/* A sum of all that a file holds. */
static int sum(int file)
{
    unsigned char piece[777];
    unsigned total = 0;
    ssize_t count;
    lseek(file, 0, SEEK_SET);
    while ((count = read(file, piece, sizeof piece)) > 0)
        for (ssize_t i = 0; i < count; i++)
            total = (total * 31 + piece[i]) % 1000003;
    return total;
}

static int size_of(const char *name) { return stat(name, &status) < 0 ? -1 : (int)status.st_size; }

static void contents(void)
{
    int file = open("big", O_RDWR | O_CREAT | O_EXCL, 0644);
    T(file >= 0);
    T(open("big", O_RDWR | O_CREAT | O_EXCL, 0644));
    for (int i = 0; i < 3000; i++)
        if (write(file, b, sprintf(b, "%d,", i * i)) < 2)
            puts("short");
    T(lseek(file, 0, SEEK_CUR));
    T(sum(file));
    T(fstat(file, &status));
    T(status.st_size);
    T(S_ISREG(status.st_mode));
    T(lseek(file, 50000, SEEK_SET));
    T(write(file, "end", 3));
    T(sum(file));
    T(pread(file, b, 10, 49996));
    T(memcmp(b, "\0\0\0\0end", 7));
    T(pread(file, b, 10, 90000));
    T(pwrite(file, "XYZ", 3, 4095));
    T(lseek(file, 0, SEEK_CUR));
    T(sum(file));
    T(ftruncate(file, 4097));
    T(sum(file));
    T(ftruncate(file, 9000));
    T(sum(file));
    T(ftruncate(file, -1));
    T(lseek(file, -1, SEEK_SET));
    T(lseek(file, 0, 9));
    T(close(file));
}

static void sizes(void)
{
    static char block[4097];
    static const int size[] = { 0, 1, 4095, 4096, 4097 };
    memset(block, 'x', sizeof block);
    for (int i = 0; i < 5; i++) {
        int file = open("sized", O_RDWR | O_CREAT | O_TRUNC, 0644);
        T(write(file, block, size[i]));
        T(sum(file));
        T(read(file, b, 1));
        close(file);
        T(size_of("sized"));
    }
    T(truncate("sized", 4096));
    T(size_of("sized"));
    T(unlink("sized"));
}

static void descriptors(void)
{
    int file = open("big", O_RDONLY), two = dup(file), other;
    T(two >= 0);
    T(lseek(two, 5, SEEK_SET));
    T(lseek(file, 0, SEEK_CUR));
    T(write(file, "x", 1));
    T(close(file));
    T(read(two, b, 4));
    T(fcntl(two, F_GETFL) & O_ACCMODE);
    T((other = fcntl(two, F_DUPFD, 30)) >= 30);
    T(read(other, b, 4));
    T(close(two));
    T(close(two));
    T(read(two, b, 1));
    T(lseek(two, 0, SEEK_SET));
    T(fstat(two, &status));
    T(dup(two));
    T(close(other));
    T(write(99, b, 1));
    file = open("big", O_WRONLY | O_APPEND);
    T(read(file, b, 1));
    T(lseek(file, 0, SEEK_SET));
    T(write(file, "last", 4));
    T(lseek(file, 0, SEEK_CUR));
    close(file);
    file = open("/dev/null", O_RDWR);
    T(write(file, "x", 1));
    T(read(file, b, 1));
    close(file);
}

static void names(void)
{
    T(open("none", O_RDONLY));
    T(open("", O_RDONLY));
    T(access("big", R_OK));
    T(access("none", F_OK));
    T(rename("big", "big2"));
    T(access("big", F_OK));
    T(size_of("big2"));
    T(rename("none", "x"));
    T(truncate("big2", 10));
    T(size_of("./big2"));
    T(open("big2/x", O_RDONLY));
    T(open("big2/x", O_WRONLY | O_CREAT, 0644));
    T(truncate("none", 0));
    T(unlink("none"));
    T(chdir("big2"));
    T(rmdir("big2"));
}

static void folders(void)
{
    FILE *file;
    T(mkdir("d", 0755));
    T(mkdir("d", 0755));
    T(mkdir("big2", 0755));
    T(stat("d", &status));
    T(S_ISDIR(status.st_mode));
    T(open("d", O_WRONLY));
    T(open("d", O_RDONLY | O_CREAT, 0644));
    int folder = open("d", O_RDONLY);
    T(folder >= 0);
    T(read(folder, b, 1));
    close(folder);
    T(truncate("d", 0));
    T(unlink("d") < 0);
    T(rename("big2", "d"));
    file = fopen("d/f", "w");
    T(fprintf(file, "one\ntwo\n"));
    T(fclose(file));
    T(rmdir("d"));
    T(chdir("d"));
    T(access("f", F_OK));
    T(access("../big2", F_OK));
    T(chdir(".."));
    T(chdir("none"));
}

static void streams(void)
{
    FILE *file = fopen("d/f", "a+");
    T(fputs("three\n", file) >= 0);
    rewind(file);
    T(fgets(b, 100, file) != NULL);
    T(strcmp(b, "one\n"));
    fseek(file, 0, SEEK_END);
    T(ftell(file));
    T(fclose(file));
    file = fopen("./d/.././d/f", "r+");
    T(fseek(file, 4, SEEK_SET));
    T(fgetc(file));
    T(ungetc('t', file));
    T(ftell(file));
    T(fread(b, 1, 4, file));
    T(memcmp(b, "two\n", 4));
    fseek(file, 0, SEEK_CUR);
    T(fputc('T', file));
    T(fflush(file));
    rewind(file);
    memset(b, 0, sizeof b);
    T(fread(b, 1, sizeof b, file));
    T(strcmp(b, "one\ntwo\nThree\n"));
    T(feof(file) != 0);
    T(fclose(file));
    T(unlink("d/f"));
    T(rmdir("d"));
    T(rmdir("d"));
    T(fopen("none", "r") == NULL);
    T(fopen("none", "q") == NULL);
}

static void more_streams(void)
{
    fpos_t place;
    FILE *file = fopen("x.txt", "wx");
    T(file != NULL);
    fclose(file);
    T(fopen("x.txt", "wx") == NULL && errno == EEXIST);
    file = fopen("x.txt", "w+");
    fputs("abcdef", file);
    rewind(file);
    getc(file);
    fgetpos(file, &place);
    getc(file);
    fsetpos(file, &place);
    T(getc(file));
    file = freopen("x.txt", "r", file);
    T(getc(file));
    fclose(file);
    T(fseek(stdin, 0, SEEK_SET));
    T(ftell(stdin));
}

static void lines(void)
{
    char *line = NULL;
    size_t room = 0;
    int count = 0;
    FILE *file = fopen("lines", "w");
    for (int i = 0; i < 300; i++)
        fprintf(file, "line %d%*s\n", i, i, "");
    fputs("no end", file);
    fclose(file);
    file = fopen("lines", "r");
    while (getline(&line, &room, file) > 0)
        count++;
    T(count);
    T(strcmp(line, "no end"));
    T(getline(&line, &room, file));
    fclose(file);
    free(line);
    T(unlink("lines"));
}

static void temporary(void)
{
    char name[] = "tmpXXXXXX";
    int file = mkstemp(name);
    T(file >= 0);
    T(write(file, "q", 1));
    T(unlink(name));
    T(sum(file));
    T(fstat(file, &status));
    T(status.st_size);
    T(close(file));
    T(access(name, F_OK));
    FILE *stream = tmpfile();
    T(fputs("kept\n", stream) >= 0);
    rewind(stream);
    T(fgets(b, sizeof b, stream) != NULL && !strcmp(b, "kept\n"));
    fclose(stream);
}

/* Standard output goes to a file for a while. */
static void redirected(void)
{
    int file = open("red", O_WRONLY | O_CREAT | O_TRUNC, 0644), keep = dup(1);
    FILE *stream;
    fflush(stdout);
    dup2(file, 1);
    dprintf(1, "%s\n", "by number");
    fflush(stdout);
    dup2(keep, 1);
    close(keep);
    close(file);
    puts("back");
    stream = fopen("red", "r");
    while (fgets(b, sizeof b, stream))
        printf("red has %s", b);
    fclose(stream);
    T(unlink("red"));
}

int main(int argc, char **argv)
{
    struct timespec time;
    T(clock_gettime(CLOCK_REALTIME, &time));
    T(time.tv_sec > 1000000000);
    contents();
    sizes();
    descriptors();
    names();
    folders();
    streams();
    more_streams();
    lines();
    temporary();
    redirected();
    for (int i = 1; i < argc; i++)
        printf("word %d is <%s>\n", i, argv[i]);
    T(rename("big2", "kept"));
    T(unlink("x.txt"));
    return 5;
}
