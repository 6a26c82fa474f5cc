#include "outfile.h"

#include <errno.h>
#include <stdlib.h>
#include <string.h>
#include <sys/stat.h>
#include <unistd.h>

/* Says why the file can't be written; false, so that it can be returned. */
static bool tell(const char *name)
{
    fprintf(stderr, "%s: %s\n", name, strerror(errno));
    return false;
}

/* Whether the name is free, or that of a regular file that may be written: a device isn't to be replaced. */
static bool may_be_written(const char *name)
{
    struct stat about;

    if (stat(name, &about) != 0)
        return errno == ENOENT || tell(name);
    if (!S_ISREG(about.st_mode)) {
        fprintf(stderr, "%s: not a regular file\n", name);
        return false;
    }
    return access(name, W_OK) == 0 || tell(name);
}

/* Writes all of it and closes the stream; false, with the reason in errno, if that can't be done. */
static bool fill(FILE *stream, void (*write)(FILE *, const void *), const void *what)
{
    bool written;

    write(stream, what);
    written = !ferror(stream);
    return fclose(stream) == 0 && written;
}

/* The same by way of the file part, which mustn't be there: it may be somebody's. */
static bool write_by_way_of(const char *part, const char *name, void (*write)(FILE *, const void *), const void *what)
{
    FILE *stream = fopen(part, "wbx");

    if (stream == NULL)
        return tell(errno == EEXIST ? part : name);
    if (fill(stream, write, what) && rename(part, name) == 0)
        return true;
    tell(name);
    remove(part);
    return false;
}

bool write_whole(const char *name, void (*write)(FILE *stream, const void *what), const void *what)
{
    static const char ending[] = ".part";
    char *part = malloc(strlen(name) + sizeof ending);
    bool written;

    if (part == NULL)
        return tell(name);
    strcat(strcpy(part, name), ending);
    written = may_be_written(name) && write_by_way_of(part, name, write, what);
    free(part);
    return written;
}
