/* The desk tool: lists, runs, folds and checks job files, runs and checks Copper lists, draws and checks pictures. */
#include <stdio.h>
#include <stdlib.h>
#include <string.h>

#include "check.h"
#include "copper.h"
#include "drawn.h"
#include "fold.h"
#include "jobfile.h"
#include "listing.h"
#include "machine.h"
#include "outcome.h"
#include "picture.h"
#include "round.h"

static const char usage[] =
    "desk list FILE      the job's steps, one a line: word index, first word, name, value, sense. A word that begins\n"
    "                    no step, a step cut off and a store to an odd address are shown with their number and end\n"
    "                    the listing\n"
    "desk run FILE       runs the job: number, place, count, zero flag; if a pointer went round, 'went round: yes' and\n"
    "                    where; each line that it draws, and what it changed\n"
    FOLD_USAGE "\n"
    "                    folds the job for memory of N words (decimal; the file's own if not given): number, place,\n"
    "                    both lengths; if a blit was kept for going round alone, 'kept for going round: yes' and which;\n"
    "                    the job and its folding side by side. OUT becomes a job file of the folded job, unless it is\n"
    "                    refused\n"
    "desk copper N FILE  runs a Copper list for one frame, with N instructions lent (decimal): the list, one instruction\n"
    "                    a line; the trace, for each instruction done the beam's line and position where it started;\n"
    "                    why it stopped, number, done, the next word, the beam, and what it changed\n"
    "desk picture FILE OUT.ppm\n"
    "                    writes what the screen shows as a binary PPM, which any viewer opens, unless it is refused. With -\n"
    "                    for OUT.ppm it is drawn here, one sign a pixel by colour number: . is 0, 1 to 9, A to V are 10\n"
    "                    to 31; below it the colours that occur\n"
    "desk check FILE..   runs each job or Copper list, or draws each picture, and compares what it leaves or shows with\n"
    "                    what its file says\n"
    "\n"
    "Exit status: 0 done, the frame over or the number used up; 1 an error, told on standard error with file and line, or\n"
    "a check that differs; 2 a run, a folding, a frame or a picture that was refused. A listing of a readable job ends with 0.\n";

/* The forms of the files follow the usage; C99 promises no text as long as both together. */
static const char forms[] =
    "\n"
    "A job file holds words of four hex digits, separated by blanks; ';' begins a comment. Lines of their own:\n"
    "  ram N                    memory of N words (decimal; 32768 if not said), all zero at the start but for\n"
    "  at ADDRESS WORD..        these, from a byte address on (hex)\n"
    "  register NAME VALUE      a register at the start: BLTCON0 and so on, COPCON, COLOR00 to COLOR31, or zero; all\n"
    "                           are zero if not said\n"
    "  leaves at ADDRESS WORD.. memory afterwards; every other word must be as it was\n"
    "  leaves NAME VALUE        a register afterwards: BLTDPTL 0014, zero 1\n"
    "  leaves count N           words stored\n"
    "  leaves number N          the answer, 0 if not said\n"
    "  leaves place N           the place of a refused step, 0 if not said\n"
    "  leaves round yes         a pointer goes round between two accesses of its blit; or leaves round no\n"
    "  folds N FILE             folded for N words it is the job of this file, named from this one's folder\n"
    "  folds N FILE round yes   and a blit is kept for going round alone; or folds N FILE round no\n"
    "\n"
    "A Copper list's file, whose name ends in .list, has the list's words in the stead of a job's, and the same lines but\n"
    "for 'leaves count', 'leaves place', 'leaves round' and 'folds'. Lines of its own:\n"
    "  start ADDRESS            the list stands in memory from this byte address on (hex; 0 if not said), over 'at' lines\n"
    "  lent N                   the instructions that check lends; the largest number if not said\n"
    "  leaves why WHY           why it stops: end (of the frame), used (up) or refused; end if not said\n"
    "  leaves done N            instructions done\n"
    "  leaves word N            the word number of the next or the refused instruction\n"
    "  leaves beam LINE POSITION, or leaves beam over: where the beam stands then\n"
    "\n"
    "A picture file, whose name ends in .picture, has 'ram', 'at' and 'register' lines and these, and no words besides:\n"
    "  planes ADDRESS..         the byte address (hex) of each bit plane, plane 1 first\n"
    "  words N                  the words of a row, 16 pixels each\n"
    "  rows N                   up to 1024; 1 if not said\n"
    "  modulo ODD EVEN          the bytes added behind a row's words, of odd and of even planes; 0 0 if not said\n"
    "  delay ODD EVEN           the pixels by which odd and even planes come later; 0 0 if not said\n"
    "  delay ODD EVEN from ROW  the same from a row on; the first row is 0\n"
    "  shows ROW RUN..          a row's colours, of three hex digits or COLOUR*COUNT; further lines go on with the row\n"
    "  shows number N           the answer, 0 if not said\n";

static int list_command(const char *name)
{
    struct jobfile *jobfile = jobfile_read(name, JOB);

    if (jobfile == NULL)
        return ERROR;
    print_listing(jobfile->job, jobfile->job_words);
    if (jobfile->job_words > JOB_LIMIT)
        printf("%lu words: run and fold refuse it (3)\n", (unsigned long)jobfile->job_words);
    free(jobfile);
    return DONE;
}

static int print_run(const struct jobfile *jobfile)
{
    static struct machine machines[2];
    struct run whole = run_of(jobfile, &machines[0]), parts;
    bool drew, agreed;

    print_answer(whole.number, whole.place);
    printf("count %lu\n", (unsigned long)whole.count);
    printf("zero flag %u\n", (unsigned)machines[0].file[ZERO_FLAG]);
    agreed = print_rounds(jobfile, &machines[1], whole.round);
    parts = print_drawn(jobfile, &machines[1], &drew);
    print_changed_words(jobfile->ram, machines[0].ram, jobfile->ram_words, drew);
    print_changed_registers(jobfile->file, machines[0].file);
    if (!same_run(parts, whole) || !same_machine(&machines[0], &machines[1])) {
        fputs("desk run: done in parts the run ends otherwise\n", stderr);
        return ERROR;
    }
    return !agreed ? ERROR : whole.number == 0 ? DONE : REFUSED;
}

static int run_command(const char *name)
{
    struct jobfile *jobfile = jobfile_read(name, JOB);
    int status = jobfile == NULL ? ERROR : print_run(jobfile);

    free(jobfile);
    return status;
}

static int check_command(char **names)
{
    int status = DONE;

    for (; *names != NULL; names++)
        if (!check_file(*names))
            status = ERROR;
    return status;
}

static int command(int count, char **words)
{
    if (count == 3 && strcmp(words[1], "list") == 0)
        return list_command(words[2]);
    if (count == 3 && strcmp(words[1], "run") == 0)
        return run_command(words[2]);
    if (count >= 2 && strcmp(words[1], "fold") == 0)
        return fold_command(words + 2);
    if (count == 4 && strcmp(words[1], "copper") == 0)
        return copper_command(words[2], words[3]);
    if (count == 4 && strcmp(words[1], "picture") == 0)
        return picture_command(words[2], words[3]);
    if (count >= 3 && strcmp(words[1], "check") == 0)
        return check_command(words + 2);
    fputs(usage, stderr);
    fputs(forms, stderr);
    return ERROR;
}

int main(int count, char **words)
{
    int status = command(count, words);

    if (fflush(stdout) != 0 || ferror(stdout)) {
        fputs("desk: standard output can't be written\n", stderr);
        return ERROR;
    }
    return status;
}
