/* Writes a sample store of generation 2 version 2: short, split and exactly full answers. */
#include "options.h"
#include "tacho.h"

#include <stdio.h>

/* Activities come with a second of their day, at 08:15 and at 23:59:59; the store keeps the first second of the day. */
static const struct { uint8_t trep; uint32_t second; size_t data; } answers[] = {
    {0x00, 0, 2}, {0x31, 0, 900}, {0x32, 1700036100, 502}, {0x32, 1700179199, 4000}, {0x33, 0, 252}, {0x24, 0, 40000}, {0x35, 0, 1255},
};

int main(int argc, char **argv)
{
    static uint8_t store[TACHO_STORE_MOST], answer[TACHO_ANSWER_MOST];
    static const char help[] = "sample_store FILE: writes a sample bench store\n";
    bool wants_help = false;
    if (!options_read(argc, argv, &(program_option){"help", NULL, NULL, 0, &wants_help}, 1, 1)) return 2;
    if (wants_help) return help_said(help);
    size_t len = 0;
    for (size_t i = 0; i < sizeof answers / sizeof *answers; i++) {
        answer[0] = 0x76;
        answer[1] = answers[i].trep;
        for (size_t k = 0; k < answers[i].data; k++) answer[2 + k] = (uint8_t)(k * 7 + i);
        tacho_written w = tacho_store_append(store, sizeof store, answer, 2 + answers[i].data, answers[i].second);
        if (w.number) {
            fprintf(stderr, "%s %02X: %s (%u)\n", tacho_type_text(answers[i].trep), answers[i].trep, tacho_number_text(w.number), w.number);
            return 1;
        }
        len = w.len;
    }
    return file_write(argv[argc - 1], store, len) ? 0 : 2;
}
