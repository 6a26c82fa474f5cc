/* The command that folds a job. */
#ifndef FOLD_H
#define FOLD_H

/* How it is called. */
#define FOLD_USAGE "desk fold [-n N] [-o OUT] FILE"

/* desk fold and the words behind it, the last of them null; gives the exit status. */
int fold_command(char **words);

#endif
