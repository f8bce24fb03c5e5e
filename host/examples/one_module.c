/* Takes in a static module, loads a module and unloads it, from C; and calls that are refused, the writer's among them. Ends with 0 if all calls answer
 * as they should, else with the number of the first that does not. */
#include "fillqhano.h"
#include <stdio.h>
#include <string.h>

#define AT 0x100000u

static uint8_t memory[2 * FILLQHANO_PAGE], records[16384], names[16384], missing[FILLQHANO_MISSING];

static int calls;

/* Whether a call answered this number and value, with no touch. */
static int gave(struct fillqhano_answer answer, uint32_t number, uint32_t value)
{
    calls++;
    return answer.number == number && answer.value == value && answer.touched == 0 && answer.first == 0;
}

/* A header whose code is 0x10 bytes from 0x138 on; words have their lowest byte first. */
static void put_module(uint8_t *image, const char *magic)
{
    memcpy(image + 0x080, magic, 4);
    memcpy(image + 0x0B0, "\x38\x01", 2);
    memcpy(image + 0x0B4, "\x10", 1);
}

/* The writer: what is no description is refused, and an image shorter than its header says cannot be read back. */
static int written(void)
{
    static const uint8_t nothing[0x138] = {0};
    uint32_t value = 1;

    calls++;
    if (fillqhano_write_image(nothing, sizeof nothing, memory, sizeof memory, &value) != FILLQHANO_NOT_WRITABLE || value != 0)
        return 0;
    calls++;
    value = 1;
    return fillqhano_read_image(nothing, sizeof nothing - 1, memory, sizeof memory, &value) == FILLQHANO_NOT_WRITABLE && value == 0;
}

static int run(void)
{
    struct fillqhano_window window = {AT, memory, sizeof memory};
    struct fillqhano_linker linker = {records, sizeof records, names, sizeof names, missing, sizeof missing};
    struct fillqhano_load_arguments module = {AT + FILLQHANO_PAGE, FILLQHANO_PAGE, 0, 0, 0, 0, 1, 1};
    struct fillqhano_answer answer;

    put_module(memory, "CRS0");
    put_module(memory + FILLQHANO_PAGE, "CRO0");
    if (!gave(fillqhano_linker_initialize(linker, window, AT, FILLQHANO_PAGE), FILLQHANO_DONE, 0))
        return calls;
    if (!gave(fillqhano_linker_load(linker, window, module), FILLQHANO_DONE, FILLQHANO_PAGE))
        return calls;
    if (!gave(fillqhano_linker_unload(linker, window, module.base), FILLQHANO_DONE, 1))
        return calls;
    if (!gave(fillqhano_linker_unload(linker, window, module.base), FILLQHANO_DONE, 0))
        return calls;

    module.base += 0x800;
    if (!gave(fillqhano_linker_load(linker, window, module), FILLQHANO_NOT_A_CRO, 0))
        return calls;
    /* the magic is a word whose last two bytes lie outside the window */
    module.base = AT + sizeof memory - 0x82;
    answer = fillqhano_linker_load(linker, window, module);
    calls++;
    if (answer.number != FILLQHANO_NOT_A_CRO || answer.touched != 1 || answer.first != AT + sizeof memory - 2)
        return calls;
    window.length--;
    if (!gave(fillqhano_linker_unload(linker, window, AT), FILLQHANO_BAD_WINDOW, 0))
        return calls;
    window.length++;
    /* names that are no buffer at all: the static module has none, and still stands */
    linker.names = NULL;
    linker.names_length = 0;
    if (!gave(fillqhano_linker_unload(linker, window, AT), FILLQHANO_DONE, 1))
        return calls;
    linker.records = NULL;
    linker.records_length = 0;
    if (!gave(fillqhano_linker_initialize(linker, window, AT, FILLQHANO_PAGE), FILLQHANO_BAD_REGISTER, 0))
        return calls;
    return written() ? 0 : calls;
}

int main(void)
{
    int wrong = run();
    if (wrong)
        printf("call %d of %d does not answer as it should\n", wrong, calls);
    else
        printf("%d calls from C answer as they should\n", calls);
    return wrong;
}
