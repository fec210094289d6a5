/* A host of the installed library, in C that is C++ too: it binds, raises, and tells what it is linked with. */
#include <codzvregi.h>
#include <stdio.h>
#include <string.h>

static const char SCRIPT[] = "spin 1\nevent 0 0 w:w last\nhandler 1 w:w result + a0 1\n";

int main(void) {
    const uint64_t words[] = {41};
    struct spin_lane lane = {NULL};
    struct spin_answer answer;
    struct spin_command_words install;
    memset(&install, 0, sizeof install);
    install.op = SPIN_INSTALL;
    install.handler = 1;
    if (codzvregi_version() != CODZVREGI_VERSION) {
        return 1;
    }
    if (spin_lane_open(&lane, SCRIPT, strlen(SCRIPT), &answer) || spin_lane_command(&lane, &install, &answer) ||
        spin_lane_raise(&lane, 0, words, 1, &answer)) {
        return 1;
    }
    printf("%u at %u\n%s\n", (unsigned)answer.value, (unsigned)answer.place, codzvregi_proved());
    return (int)spin_lane_close(&lane, &answer);
}
