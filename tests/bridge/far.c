/*
 * The far side of the bridge (bridge.h): makes the calls that come over the socket, its standard input, until the near side has ended.
 */
#include "bridge.h"

#include <sys/socket.h>
#include <unistd.h>

static message m;

/* The tables of the message with their lengths. */
#define TABLE(NAME, ELEMENT) (ELEMENT *)(void *)(m.tables + m.starts[NAME]), m.lengths[NAME]
#define LENT TABLE(STATES, uint8_t), TABLE(OWNERS, uint8_t), TABLE(LISTS, uint16_t), TABLE(CALLS, uint64_t), TABLE(QUEUE, uint8_t)

static void make_call(void) {
    switch (m.name) {
    case LENGTHS_OF: m.answer.lengths = saltbalance_lengths_of(m.shape); break;
    case BUILD: m.answer.answer = saltbalance_build(&m.device, m.shape, LENT); break;
    case ASK: m.answer.answer = saltbalance_ask(m.device, m.shape, LENT, m.about.thread, m.about.size, m.about.wait); break;
    case GO_ON: m.answer.answer = saltbalance_go_on(&m.device, m.shape, LENT, m.about.thread); break;
    case GIVE_BACK: m.answer.answer = saltbalance_give_back(m.device, m.shape, LENT, m.about.thread, m.about.id); break;
    case SWITCH: m.answer.answer = saltbalance_switch(&m.device, m.shape, LENT, m.about.thread); break;
    case TICK: m.answer.answer = saltbalance_tick(&m.device, m.shape, LENT); break;
    case WHOLE: m.answer.answer = saltbalance_whole(m.device, m.shape, LENT); break;
    case COVER: m.answer.covered = saltbalance_cover(m.device, m.shape, LENT, m.about.offset); break;
    case MAP: m.answer.mapped = saltbalance_map(m.device, m.shape, LENT, TABLE(ROW, uint32_t)); break;
    }
}

int main(void) {
    for (;;) {
        ssize_t size = recv(STDIN_FILENO, &m, sizeof m, 0);
        if (size <= 0) {
            return size != 0;
        }
        make_call();
        if (send(STDIN_FILENO, &m, (size_t)size, MSG_NOSIGNAL) != size) {
            return 1;
        }
    }
}
