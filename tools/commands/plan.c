#include "../plan.h"

#include <stdio.h>

#include "../commands.h"
#include "../picture.h"
#include "../say.h"

static int run_plan(const arguments *given)
{
    plan_file p;
    if (!read_plan(given->files[0], &p))
        return MISUSE;
    if (!plan_is_legal(&p.plan)) {
        say_illegal(&p);
        return REFUSED;
    }
    draw_plan(stdout, &p.plan);
    return DONE;
}

static const option_row options[] = {{OPTIONS, FLAG, NULL, NULL}};

const command plan_command = {
    .name = "plan",
    .usage = "PLAN",
    .about = "say whether a plan is legal, and draw its group",
    .more = "",
    .least = 1,
    .most = 1,
    .output = PRINTS,
    .options = options,
    .run = run_plan,
};
