/*
 * A board on Linux, for tests: with head.c it is document 01's session printer. Standard input has record (256 bytes), UDS (32) and
 * UDI (8), then what comes from the cable, and is read byte by byte, so that nothing after the end is; each reply is a line, and
 * so is the end. RAM is 32,768 zeros, and there is no flash. It needs nothing but read, write and _exit, which linux_riscv32.s has.
 */
#include <stddef.h>

#include "board.h"
#include "mastfrap.h"

#define RAM_BYTES 32768
#define PREFIX_BYTES (256 + 32 + 8)
#define ADDRESS 0x40000000

long read(int file, void *to, size_t n);
long write(int file, const void *from, size_t n);
_Noreturn void _exit(int status);

static uint8_t prefix[PREFIX_BYTES];
static _Alignas(4) uint8_t ram[RAM_BYTES];
static uint32_t uds[8], received;

/* ---- a line on standard output */

static uint8_t line[2 + 2 * MASTFRAP_FRAME_BYTES + 1];
static uint32_t line_len;

static void put(uint8_t byte)
{
    line[line_len++] = byte;
}

static void put_kind(char kind)
{
    line_len = 0;
    put(kind);
    put(' ');
}

static void put_hex(const uint8_t *from, uint32_t n)
{
    for (uint32_t i = 0; i < n; i++) {
        put("0123456789abcdef"[from[i] >> 4]);
        put("0123456789abcdef"[from[i] & 15]);
    }
}

static void put_decimal(uint32_t n)
{
    if (n >= 10)
        put_decimal(n / 10);
    put('0' + n % 10);
}

static void write_line(void)
{
    put('\n');
    for (uint32_t at = 0; at < line_len;) {
        long n = write(1, line + at, line_len - at);
        if (n <= 0)
            _exit(1);
        at += n;
    }
}

static _Noreturn void end_with(char kind, uint32_t n)
{
    put_kind(kind);
    put_decimal(n);
    write_line();
    _exit(0);
}

/* ---- the board */

const struct board *board(void)
{
    static const uint8_t none[32];
    static const struct board b = {
        .record = prefix, .udi = prefix + 288, .slot = {none, none}, .built_in = none, .ram = ram, .ram_len = RAM_BYTES, .uds = uds,
    };

    for (uint32_t got = 0; got < PREFIX_BYTES;) {
        long n = read(0, prefix + got, PREFIX_BYTES - got);
        if (n <= 0)
            end_with('E', 1);
        got += n;
    }
    for (int i = 0; i < 32; i++)
        uds[i / 4] |= (uint32_t)prefix[256 + i] << 8 * (i % 4);
    return &b;
}

uint8_t uart_read(void)
{
    uint8_t byte;

    if (read(0, &byte, 1) != 1)
        end_with('W', received);
    received++;
    return byte;
}

void uart_write(const uint8_t *reply, uint32_t n)
{
    put_kind('R');
    put_hex(reply, n);
    write_line();
}

/* Stops are F; E is a refusal, which this firmware must never get. */
void lamp(uint32_t why)
{
    if (why != MASTFRAP_CONTINUE)
        end_with(why >= MASTFRAP_STOPPED_TYPE && why <= MASTFRAP_STOPPED_PROGRAM_SIZE ? 'F' : 'E', why);
}

_Noreturn void run(uint32_t address, uint32_t size, const uint8_t cdi[32])
{
    if (address != ADDRESS)
        end_with('E', address);
    for (int i = 0; i < 8; i++)
        if (uds[i] != 0)
            end_with('E', i);
    put_kind('S');
    put_decimal(size);
    put(' ');
    put_hex(cdi, 32);
    write_line();
    _exit(0);
}
