/* The plan in lines, and a group as it is stored. */
#ifndef PICTURE_H
#define PICTURE_H

#include <stdio.h>

#include "plan.h"

void draw_plan(FILE *to, const vin_plan *plan);

#endif
