#include "identity.h"

/* Document 001, A.1; the gaps are numbers that it does not list. */
static const char *const devices[] = {
    [0] = "DP11-DA",
    [1] = "DEUNA",
    [2] = "DU11-DA",
    [3] = "CNA",
    [4] = "DL11-C, -E or -WA",
    [5] = "QNA",
    [6] = "DQ11-DA",
    [7] = "Computer Interconnect",
    [8] = "DA11-B or -AL",
    [9] = "PCL11-B",
    [10] = "DUP11-DA",
    [12] = "DMC11",
    [14] = "DN11-BA or -AA",
    [16] = "DLV11 or MXV11",
    [18] = "DMP11",
    [20] = "DTE20",
    [22] = "DV11",
    [24] = "DZ11",
    [28] = "KMC11/DUP11",
    [30] = "KMC11/DZ11",
    [32] = "KL8-J",
    [34] = "DMV11",
    [36] = "DPV11",
    [38] = "DMF-32",
    [40] = "DMR11",
    [42] = "KMS11-PX",
    [44] = "KMS11-BD/BE",
};

void device_words(FILE *out, uint8_t device)
{
    const char *name = device < sizeof devices / sizeof devices[0] ? devices[device] : NULL;
    fprintf(out, "%d", device);
    if (name != NULL)
        fprintf(out, " (%s)", name);
}

void processor_words(FILE *out, uint8_t processor)
{
    static const char *const names[] = {" (the system processor)", " (the communication processor)"};
    fprintf(out, "%d%s", processor, processor < sizeof names / sizeof names[0] ? names[processor] : "");
}

void quoted_words(FILE *out, const uint8_t *bytes, size_t length)
{
    fputc('"', out);
    for (size_t i = 0; i < length; i++)
        if (bytes[i] < ' ' || bytes[i] > '~')
            fprintf(out, "\\x%02X", (unsigned)bytes[i]);
        else
            fprintf(out, bytes[i] == '"' || bytes[i] == '\\' ? "\\%c" : "%c", bytes[i]);
    fputc('"', out);
}

void software_words(FILE *out, uint8_t form, const uint8_t *id, size_t id_length)
{
    switch (form) {
    case MOP_FORM_NONE:
        fputs("no software id", out);
        break;
    case MOP_FORM_STANDARD:
        fputs("the standard system", out);
        break;
    case MOP_FORM_MAINTENANCE:
        fputs("the maintenance system", out);
        break;
    default:
        fputs("software id ", out);
        quoted_words(out, id, id_length);
    }
}
