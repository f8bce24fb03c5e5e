/* Two titles send command buffers to the desk, from C: one loads a module and unloads it, the other is refused. Ends with 0 if all calls answer as
 * they should, else with the number of the first that does not. */
#include "fillqhano.h"
#include <stdio.h>
#include <string.h>

#define AT 0x100000u
#define COMMANDS (AT + FILLQHANO_PAGE)

static uint8_t memory[2 * FILLQHANO_PAGE], records[16384], names[16384], missing[FILLQHANO_MISSING];
static struct fillqhano_desk desk;

static int calls;

/* The word at an address of the window, lowest byte first. */
static uint32_t word(uint32_t address)
{
    const uint8_t *byte = memory + (address - AT);
    return byte[0] | (uint32_t)byte[1] << 8 | (uint32_t)byte[2] << 16 | (uint32_t)byte[3] << 24;
}

static void put(uint32_t address, const uint32_t *words, size_t count)
{
    size_t place;
    for (place = 0; place < 4 * count; place++)
        memory[address - AT + place] = (uint8_t)(words[place / 4] >> (8 * (place % 4)));
}

/* A title writes its command, and the host sends it on. */
static int sent(uint32_t caller, uint32_t buffer, const uint32_t *words, size_t count)
{
    put(buffer, words, count);
    calls++;
    return fillqhano_desk_send(&desk, caller, buffer) == FILLQHANO_DONE;
}

/* Whether a turn served this caller's buffer with this number and value, and left this result in its reply. */
static int turned(struct fillqhano_linker linker, struct fillqhano_window window, uint32_t caller, uint32_t buffer, uint32_t number,
                  uint32_t value, uint32_t result)
{
    struct fillqhano_turn_answer answer = fillqhano_desk_turn(&desk, linker, window);
    calls++;
    return answer.number == number && answer.value == value && answer.served == 1 && answer.caller == caller &&
           answer.buffer == buffer && answer.touched == 0 && answer.first == 0 && word(buffer + 4) == result;
}

static int run(void)
{
    static const uint32_t load[] = {0x000402C2, AT, 0, FILLQHANO_PAGE, 0, 0, 0, 0, 0, 1, 1};
    static const uint32_t unload[] = {0x00050082, AT, 0};
    static const uint32_t elsewhere[] = {0x000100C2, AT, FILLQHANO_PAGE, AT + 4};
    struct fillqhano_window window = {AT, memory, sizeof memory};
    struct fillqhano_linker linker = {records, sizeof records, names, sizeof names, missing, sizeof missing};
    struct fillqhano_turn_answer idle;

    memcpy(memory + 0x080, "CRO0", 4);
    memcpy(memory + 0x0B0, "\x38\x01", 2);
    memcpy(memory + 0x0B4, "\x10", 1);
    if (!sent(7, COMMANDS, load, 11) || !sent(7, COMMANDS + 0x100, unload, 3) || !sent(9, COMMANDS + 0x200, elsewhere, 4))
        return calls;
    if (!turned(linker, window, 7, COMMANDS, FILLQHANO_DONE, FILLQHANO_PAGE, 0))
        return calls;
    if (!turned(linker, window, 9, COMMANDS + 0x200, FILLQHANO_ELSEWHERE, 0, FILLQHANO_NOT_LOADED))
        return calls;
    if (!turned(linker, window, 7, COMMANDS + 0x100, FILLQHANO_DONE, 1, 0))
        return calls;
    if (word(COMMANDS) != 0x00040080 || word(COMMANDS + 8) != FILLQHANO_PAGE)
        return calls;
    idle = fillqhano_desk_turn(&desk, linker, window);
    calls++;
    if (idle.number != FILLQHANO_DONE || idle.served != 0)
        return calls;
    /* one byte fewer is a desk without places */
    calls++;
    return fillqhano_send(desk.bytes, FILLQHANO_DESK - 1, 7, COMMANDS, &idle.value) == FILLQHANO_DESK_FULL && idle.value == 0 ? 0 : calls;
}

int main(void)
{
    int wrong = run();
    if (wrong)
        printf("call %d of %d does not answer as it should\n", wrong, calls);
    else
        printf("%d calls of the desk from C answer as they should\n", calls);
    return wrong;
}
