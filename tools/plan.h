/* The plan as text, and its rules in words. */
#ifndef PLAN_H
#define PLAN_H

#include <stdbool.h>
#include <stddef.h>

#include "../include/vinculampe.h"

/* The limits that messages name. Whether a plan is legal is the library's to say (plan_is_legal). */
enum {
    WORDS_LEAST = 128,
    WORDS_MOST = 512,
    TRACKS_MOST = 4,
    BUSES = 16,
    BUSES_WITH_PARITY = 8,
    LABEL_MOST = 7,
    FRAME_TIME_WORDS = 3
};

/* The keys with one value. */
enum plan_key {
    KEY_WORDS,
    KEY_TRACKS,
    KEY_FRAME_TIME,
    KEY_CRC,
    KEY_PARITY,
    KEY_CRC_LABEL,
    KEY_FILL_BUS,
    KEYS
};

/* A plan, and the lines that gave it. */
typedef struct {
    const char *name;
    vin_plan plan;
    size_t key_lines[KEYS], bus_lines[BUSES]; /* 0: not given */
} plan_file;

/* Reads the plan's text. What is wrong is said with its line. */
bool read_plan(const char *name, plan_file *to);

bool plan_is_legal(const vin_plan *plan);

/* Says every rule that the plan breaks, each as a refusal by 1 with the line that breaks it. */
void say_illegal(const plan_file *p);

/* "MIL-STD-1553" and the like. */
const char *kind_name(unsigned kind);

#endif
