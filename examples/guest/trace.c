#include "trace.h"

#include <inttypes.h>

void script_write(FILE *file, const struct request *request, uint64_t now)
{
    switch (request->kind) {
    case REQUEST_IN:
        fprintf(file, "in %04x\n", request->place);
        break;
    case REQUEST_OUT:
        fprintf(file, "out %04x %02x\n", request->place, request->value);
        break;
    case REQUEST_RECEIVE:
        fprintf(file, "byte %02x\n", request->value);
        break;
    case REQUEST_WIRE:
        fprintf(file, "wire %d %d\n", request->place, request->value);
        break;
    case REQUEST_ADVANCE:
        fprintf(file, "wait %" PRIu64 "\n", request->moment - now);
        break;
    case REQUEST_ACK:
        fputs("ack\n", file);
        break;
    default:
        die("call %d is no event", request->kind);
    }
}

bool script_read(const char *line, uint64_t now, struct request *request)
{
    unsigned place = 0, value = 0;
    uint64_t span = 0;
    int end = 0;
    *request = (struct request){.moment = now};
    if (sscanf(line, "wait %" SCNu64 "%n", &span, &end) == 1)
        request->kind = REQUEST_ADVANCE;
    else if (sscanf(line, "out %4x %2x%n", &place, &value, &end) == 2)
        request->kind = REQUEST_OUT;
    else if (sscanf(line, "in %4x%n", &place, &end) == 1)
        request->kind = REQUEST_IN;
    else if (sscanf(line, "byte %2x%n", &value, &end) == 1)
        request->kind = REQUEST_RECEIVE;
    else if (sscanf(line, "wire %u %1u%n", &place, &value, &end) == 2)
        request->kind = REQUEST_WIRE;
    else if (sscanf(line, "ack%n", &end) == 0)
        request->kind = REQUEST_ACK;
    request->moment += span;
    request->place = (uint16_t)place;
    request->value = (uint8_t)value;
    return end && line[end] == '\n';
}

size_t trace_line(char *line, const struct request *request, const struct vmstate_board_answer *answer)
{
    static const char digits[] = "0123456789abcdef";
    bool has_value = request->kind == REQUEST_IN || request->kind == REQUEST_ACK;
    char *at = line;
    *at++ = has_value ? digits[answer->value >> 4] : '-';
    *at++ = has_value ? digits[answer->value & 15] : '-';
    *at++ = ' ';
    *at++ = answer->output ? '1' : '0';
    if (answer->count)
        *at++ = ' ';
    for (int i = 0; i < answer->count; i++) {
        *at++ = digits[answer->sent[i] >> 4];
        *at++ = digits[answer->sent[i] & 15];
    }
    *at++ = '\n';
    return (size_t)(at - line);
}
