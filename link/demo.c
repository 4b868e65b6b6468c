/*
 * A small program over the library: a terminal joins, moves and loses a reply on a floor of two APs, and one AP alone answers
 * bytes from outside. It prints each step with its numbers. link/demo.sh builds it, runs it and compares what it prints
 * with link/demo.out.
 */
#include <stdio.h>

#include "skelmarith.h"

static const uint8_t terminal[6] = {0x02, 0x00, 0x00, 0x00, 0x00, 0x01};
static const uint8_t context[3] = {0xab, 0xcd, 0xef};
static const uint8_t nothing[1];

static void print_octets(const uint8_t *octets, size_t len)
{
    for (size_t i = 0; i < len; i++)
        printf(" %02x", octets[i]);
    putchar('\n');
}

/* Every AP's row of the terminal, if it has one, its open moves and counts, and the packets in the air. */
static void print_floor(const skel_network *net)
{
    for (int i = 0; i < net->ap_count; i++) {
        const skel_access_point *ap = &net->points[i];
        printf("    AP %d: rows %zu, open moves %zu, opened %u, resent %u, answered %u, given up %u\n", i,
               ap->associations.count, ap->moves.count, (unsigned)ap->opened, (unsigned)ap->resent,
               (unsigned)ap->answered, (unsigned)ap->given_up);
        for (size_t k = 0; k < ap->associations.count; k++) {
            const skel_association *row = &ap->associations.items[k];
            printf("      row: sequence %u, context of %zu:", row->sequence, row->context_len);
            print_octets(row->context, row->context_len);
        }
    }
    for (size_t k = 0; k < net->in_flight.count; k++) {
        const skel_in_flight *packet = &net->in_flight.items[k];
        printf("    packet %zu from AP %u to AP %u:", k, packet->from, packet->to);
        print_octets(packet->octets, packet->len);
    }
}

static void step(const skel_network *net, const char *what, skel_line line)
{
    printf("%s: answer %u, sent %u, given up %u\n", what, line.answer, line.sent, line.given_up);
    print_floor(net);
}

static void floor_of_two(void)
{
    static skel_network net;

    puts("A floor of 2 APs, T = 2 ticks, R = 1 resend");
    step(&net, "set-up", skel_set_up(&net, 2, 2, 1));
    step(&net, "the terminal joins AP 0, sequence 10, from nowhere, with a context",
         skel_join(&net, 0, terminal, 10, SKEL_NONE, context, sizeof context));
    step(&net, "its ADD-notify is delivered", skel_deliver(&net, 0));
    step(&net, "the terminal moves to AP 1, sequence 11, from AP 0", skel_join(&net, 1, terminal, 11, 0, nothing, 0));
    step(&net, "the notice is delivered to AP 0", skel_deliver(&net, 0));
    step(&net, "the reply is lost, and the context with it", skel_lose(&net, 0));
    step(&net, "tick at AP 1", skel_tick(&net, 1));
    step(&net, "tick at AP 1: the notice is sent again", skel_tick(&net, 1));
    step(&net, "it is delivered: AP 0 has no row by now", skel_deliver(&net, 0));
    step(&net, "the answer is delivered: the move is closed", skel_deliver(&net, 0));

    skel_line who = skel_who(&net, terminal);
    printf("who has the terminal: answer %u, held %u, tables %u\n", who.answer, who.held, who.tables);

    puts("Refused, each with nothing changed");
    step(&net, "the terminal joins AP 1 again, sequence 11", skel_join(&net, 1, terminal, 11, 1, nothing, 0));
    net.points[1].associations.count = 17;
    printf("a tick on a record with 17 rows: answer %u\n", skel_tick(&net, 1).answer);
}

static void reply(const char *what, skel_reply r, const uint8_t *buffer)
{
    printf("%s: answer %u, sent %u, given up %u, held %u\n", what, r.answer, r.sent, r.given_up, r.held);
    for (size_t k = 0; k < r.sent; k++) {
        printf("    to AP %u:", r.to[k]);
        print_octets(buffer + k * (r.len / r.sent), r.len / r.sent);
    }
}

static void one_alone(void)
{
    static skel_lone_access_point ap;
    uint8_t buffer[144], notice[SKEL_LONGEST_PACKET];

    puts("One AP alone, number 2 of a floor of 4, T = 5, R = 1");
    reply("set-up", skel_ap_set_up(&ap, 2, 4, 5, 1), buffer);
    reply("the terminal joins, sequence 4095, from nowhere, with a context",
          skel_ap_join(&ap, buffer, sizeof buffer, terminal, 4095, SKEL_NONE, context, sizeof context), buffer);
    reply("who has it", skel_ap_who(&ap, terminal), buffer);

    skel_written w = skel_write(notice, sizeof notice, SKEL_MOVE_NOTIFY, 7, 0, terminal, 0, nothing, 0);
    printf("a MOVE-notify, identifier 7, sequence 0, is written: answer %u, length %zu:", w.answer, w.len);
    print_octets(notice, w.len);
    reply("it comes in from AP 2 itself", skel_ap_outside(&ap, buffer, sizeof buffer, 2, notice, w.len), buffer);
    reply("it comes in from AP 0 with an octet missing",
          skel_ap_outside(&ap, buffer, sizeof buffer, 0, notice, w.len - 1), buffer);
    reply("it comes in from AP 0 and the buffer has 20 octets", skel_ap_outside(&ap, buffer, 20, 0, notice, w.len),
          buffer);

    skel_reply answered = skel_ap_outside(&ap, buffer, sizeof buffer, 0, notice, w.len);
    reply("it comes in from AP 0: sequence 0 is newer than 4095", answered, buffer);
    skel_reading r = skel_read(buffer, answered.len);
    printf("the answer is read: answer %u, command %u, identifier %u, status %u, sequence %u, context of %zu from %zu:",
           r.answer, r.command, r.identifier, r.status, r.sequence, r.len, r.start);
    print_octets(buffer + r.start, r.len);
    reply("who has it", skel_ap_who(&ap, terminal), buffer);
    reply("it leaves, with no row there", skel_ap_leave(&ap, terminal), buffer);
    reply("tick", skel_ap_tick(&ap, buffer, sizeof buffer), buffer);
}

static void whole_script(void)
{
    static const char script[] = "APS TIMEOUT RESENDS\n"
                                 "2 2 1\n"
                                 "EVENT AT STATION SEQ OLD CONTEXT\n"
                                 "join 0 020000000001 10 - ab\n"
                                 "join 1 020000000001 11 0 -\n"
                                 "lose 1 - - - -\n"
                                 "tick 1 - - - -\n"
                                 "tick 1 - - - -\n"
                                 "deliver 1 - - - -\n"
                                 "deliver 1 - - - -\n"
                                 "who - 020000000001 - - -\n";
    uint8_t out[512];

    skel_written w = skel_rehearse((const uint8_t *)script, sizeof script - 1, out, sizeof out);
    printf("The rehearsal's example: answer %u, %zu octets\n", w.answer, w.len);
    fwrite(out, 1, w.len, stdout);
}

int main(void)
{
    floor_of_two();
    one_alone();
    whole_script();
    return 0;
}
