/*
 * How much stack the library's calls use. Each runs in a thread whose stack was filled with a pattern; what the call has overwritten
 * is counted, less what a thread uses that does nothing. The calls take the longest ways: full answers, packets written, rows found.
 */
#define _POSIX_C_SOURCE 200809L

#include "skelmarith.h"

#include <pthread.h>
#include <stdio.h>
#include <stdlib.h>
#include <string.h>

#define STACK (512 * 1024)
#define PATTERN 0xA5

static unsigned char *stack;
static skel_lone_access_point ap;
static skel_network net;
static uint8_t buffer[1024], context[64];
static const uint8_t first[6] = {2, 0, 0, 0, 0, 1}, second[6] = {2, 0, 0, 0, 0, 2};
/* a MOVE-notify for the first station, newer than its row, and the answer that the second's open move waits for */
static const uint8_t notify[18] = {0, 1, 0, 7, 0, 18, 6, 0, 2, 0, 0, 0, 0, 1, 0, 99, 0, 0};
static const uint8_t response[18] = {0, 2, 0, 1, 0, 18, 6, 0, 2, 0, 0, 0, 0, 2, 0, 5, 0, 0};
static const char script[] = "APS TIMEOUT RESENDS\n2 2 1\nEVENT AT STATION SEQ OLD CONTEXT\n"
                             "join 0 020000000001 10 - ab\njoin 1 020000000001 11 0 -\ndeliver 0 - - - -\n"
                             "deliver 0 - - - -\ntick 1 - - - -\nwho - 020000000001 - - -\n";

static void nothing(void) {}
static void ap_set_up(void) { skel_ap_set_up(&ap, 0, 8, 1, 7); }
static void ap_join(void) { skel_ap_join(&ap, buffer, sizeof buffer, first, 10, SKEL_NONE, context, 64); }
static void ap_move(void) { skel_ap_join(&ap, buffer, sizeof buffer, second, 5, 1, context, 64); }
static void ap_tick(void) { skel_ap_tick(&ap, buffer, sizeof buffer); }
static void ap_notify(void) { skel_ap_outside(&ap, buffer, sizeof buffer, 1, notify, sizeof notify); }
static void ap_response(void) { skel_ap_outside(&ap, buffer, sizeof buffer, 1, response, sizeof response); }
static void ap_who(void) { skel_ap_who(&ap, second); }
static void ap_leave(void) { skel_ap_leave(&ap, second); }
static void set_up(void) { skel_set_up(&net, 8, 1, 7); }
static void join(void) { skel_join(&net, 0, first, 10, SKEL_NONE, context, 64); }
static void move(void) { skel_join(&net, 1, first, 11, 0, context, 64); }
static void deliver(void) { skel_deliver(&net, 7); }
static void repeat(void) { skel_repeat(&net, 0); }
static void lose(void) { skel_lose(&net, 0); }
static void tick(void) { skel_tick(&net, 1); }
static void who(void) { skel_who(&net, first); }
static void leave(void) { skel_leave(&net, 1, first); }
static void rehearse(void) { skel_rehearse((const uint8_t *)script, sizeof script - 1, buffer, sizeof buffer); }
static void packet_read(void) { skel_read(notify, sizeof notify); }
static void packet_write(void) { skel_write(buffer, sizeof buffer, 2, 1, 0, first, 10, context, 64); }

static const struct {
    const char *name;
    void (*call)(void);
} calls[] = {
    {"skel_read", packet_read}, {"skel_write", packet_write},
    {"skel_ap_set_up", ap_set_up}, {"skel_ap_join, from nowhere", ap_join}, {"skel_ap_join, from AP 1", ap_move},
    {"skel_ap_tick", ap_tick}, {"skel_ap_outside, MOVE-notify", ap_notify}, {"skel_ap_outside, MOVE-response", ap_response},
    {"skel_ap_who", ap_who}, {"skel_ap_leave", ap_leave},
    {"skel_set_up", set_up}, {"skel_join, from nowhere", join}, {"skel_join, from AP 0", move}, {"skel_deliver", deliver},
    {"skel_repeat", repeat}, {"skel_lose", lose}, {"skel_tick", tick}, {"skel_who", who}, {"skel_leave", leave},
    {"skel_rehearse", rehearse},
};

static void *run(void *call) {
    calls[*(const size_t *)call].call();
    return NULL;
}

static void *idle(void *unused) {
    nothing();
    return unused;
}

static long used(void *(*body)(void *), size_t *call) {
    pthread_attr_t attributes;
    pthread_t thread;
    long untouched = 0;
    memset(stack, PATTERN, STACK);
    if (pthread_attr_init(&attributes) || pthread_attr_setstack(&attributes, stack, STACK) ||
        pthread_create(&thread, &attributes, body, call) || pthread_join(thread, NULL)) {
        fputs("stack: no thread\n", stderr);
        exit(2);
    }
    while (untouched < STACK && stack[untouched] == PATTERN)
        untouched++;
    return STACK - untouched;
}

int main(void) {
    long base;
    stack = aligned_alloc(4096, STACK);
    if (!stack)
        return 2;
    used(idle, NULL);
    base = used(idle, NULL);
    for (size_t i = 0; i < sizeof calls / sizeof *calls; i++)
        printf("%-32s %7ld octets\n", calls[i].name, used(run, &i) - base);
    return 0;
}
