/* Comparing what a job or a Copper list leaves, or a picture shows, with what its file says of it. */
#ifndef CHECK_H
#define CHECK_H

#include <stdbool.h>

/* Runs the job or the list of a file, or shows its picture, prints 'NAME: as it says' or the differences, and answers
 * whether there are none. */
bool check_file(const char *name);

#endif
