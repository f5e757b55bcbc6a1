/* The end of an example: the question that a refusal stands for, in words, and the exit status. */
#ifndef REFUSAL_H
#define REFUSAL_H

#include <stdint.h>
#include <stdio.h>

static const char *const questions[21] = {
    "",
    "Is the mode listed (in a plan and of bursts: 0 or 2 to 7)?",
    "Is the size that mode's (of a plan: 256, 512, 1024 or 2048)?",
    "Is the cell in range?",
    "Is the slot below 512, the zone's symbol below 512 times the slot length?",
    "Is the subchannel in range (of a lay: and lit)?",
    "Is the index below 48?",
    "Is the carrier from -size/2 to size/2 - 1?",
    "Are the points just 96 floats for each subchannel that is lit (of a lay: 96)?",
    "Is the grid just 2 * size floats for each symbol of a slot?",
    "Do the bytes reach to the value's end or its third group?",
    "Does the value end by its third group, in shortest form?",
    "Is the count 1 to 8, and in writing every place past it zero?",
    "Are the slots 1 to 512?",
    "At 2048, is the first zone mode 0, and does only AMC (modes 3 to 6) follow AMC?",
    "Are the bytes used up?",
    "Is the destination long enough?",
    "Is the mask 1 to 63 in mode 0, 0 in the others?",
    "Are the bursts at most 64, of four numbers each, none empty and each wholly in its zone?",
    "Is the burst apart from every earlier one?",
    "Are the pilots 166 rising used numbers below 1702 in mode 7, none in the others?",
};

/* 0 where all could be written, else 2. */
static int output_status(void) { return fflush(stdout) == 0 && !ferror(stdout) ? 0 : 2; }

/* Prints a refusal; 1, or 2 where it could not be written. */
static int print_refusal(uint32_t number)
{
    printf("refused %u: %s\n", number, questions[number]);
    return output_status() == 0 ? 1 : 2;
}

#endif
