/* The beam: a frame has 262 lines of 227 positions, and a place is line x 227 + position. */
#ifndef BEAM_H
#define BEAM_H

enum { LINES = 262, POSITIONS = 227, FRAME_PLACES = LINES * POSITIONS };

#endif
