#include "../explain.h"

#include <stdlib.h>
#include <string.h>

#include "../commands.h"
#include "../say.h"

static int run_explain(const arguments *given)
{
    if (given->count == 0) {
        explain_all(stdout);
        return DONE;
    }
    const char *number = given->files[0];
    bool digits = *number && strspn(number, "0123456789") == strlen(number) && strlen(number) <= 9;
    if (digits && explain(stdout, strtoul(number, NULL, 10)))
        return DONE;
    complain("no refusal has the number %s; vin explain lists them", show(number).text);
    return MISUSE;
}

static const option_row options[] = {{OPTIONS, FLAG, NULL, NULL}};

const command explain_command = {
    .name = "explain",
    .usage = "[N]",
    .about = "say what refusal N means, or list them all",
    .more = "",
    .least = 0,
    .most = 1,
    .words = 1,
    .output = PRINTS,
    .options = options,
    .run = run_explain,
};
