// The header in C++: an owner of each handle, and a packet from a sender to a receiver, once as it is sent and once as it
// is retransmitted.
#include "gozdrit.h"

#include <cstring>

namespace {

const gozdrit_session session = {0x11111111, 0x22222222, 0x33333333, 96, 97, 0};

struct Sender {
    gozdrit_sender handle;
    Sender() : handle() {
        gozdrit_sender_config config;
        gozdrit_sender_defaults(&config, sizeof config);
        config.session = session;
        config.first_sequence = 1;
        gozdrit_sender_new(&config, &handle);
    }
    ~Sender() { gozdrit_sender_free(&handle); }

private:
    Sender(const Sender &);
    Sender &operator=(const Sender &);
};

struct Receiver {
    gozdrit_receiver handle;
    Receiver() : handle() {
        gozdrit_receiver_config config;
        gozdrit_receiver_defaults(&config, sizeof config);
        config.session = session;
        gozdrit_receiver_new(&config, &handle);
    }
    ~Receiver() { gozdrit_receiver_free(&handle); }

private:
    Receiver(const Receiver &);
    Receiver &operator=(const Receiver &);
};

// Whether a struct says its size, and nothing else.
template <typename Struct> bool is_blank(const Struct &made) {
    Struct blank;
    std::memset(&blank, 0, sizeof blank);
    blank.size = sizeof blank;
    return !std::memcmp(&made, &blank, sizeof blank);
}

// What the macros make. These are static, so that the octets between two fields are 0 too.
const gozdrit_sent sent_init = GOZDRIT_SENT_INIT;
const gozdrit_received received_init = GOZDRIT_RECEIVED_INIT;
const gozdrit_outcome outcome_init = GOZDRIT_OUTCOME_INIT;
const gozdrit_played played_init = GOZDRIT_PLAYED_INIT;
const gozdrit_times times_init = GOZDRIT_TIMES_INIT;
const gozdrit_receive_counts receive_counts_init = GOZDRIT_RECEIVE_COUNTS_INIT;
const gozdrit_probe_counts probe_counts_init = GOZDRIT_PROBE_COUNTS_INIT;
const gozdrit_send_counts send_counts_init = GOZDRIT_SEND_COUNTS_INIT;

bool are_blank() {
    return is_blank(sent_init) && is_blank(received_init) && is_blank(outcome_init) && is_blank(played_init)
           && is_blank(times_init) && is_blank(receive_counts_init) && is_blank(probe_counts_init)
           && is_blank(send_counts_init);
}

const uint8_t said[] = {'h', 'e', 'l', 'l', 'o'};

// Plays one packet, which must be what was said.
bool plays(gozdrit_receiver *receiver, uint64_t sequence) {
    gozdrit_played played = GOZDRIT_PLAYED_INIT;
    uint8_t payload[sizeof said];
    return !gozdrit_play(receiver, 0, &played, payload, sizeof payload) && played.kind == GOZDRIT_PACKET
           && played.sequence == sequence && played.length == sizeof said && !std::memcmp(payload, said, sizeof said);
}

// A packet is lost, named by a NACK, and retransmitted; the sender is silent, so it retransmits its last one unasked.
int repair(gozdrit_sender *sender, gozdrit_receiver *receiver) {
    gozdrit_sent sent = GOZDRIT_SENT_INIT;
    gozdrit_received received = GOZDRIT_RECEIVED_INIT;
    gozdrit_outcome outcome = GOZDRIT_OUTCOME_INIT;
    uint8_t out[GOZDRIT_MAX_DATAGRAM];
    uint32_t queued;
    size_t length;
    if (gozdrit_tail_loss_probe(sender, &queued) || queued != 1) return 11;
    if (gozdrit_retransmit(sender, &sent, out, sizeof out)) return 12;
    if (gozdrit_receive(receiver, out, sent.length, 0, &received) || received.kind != GOZDRIT_RETRANSMISSION) return 13;
    if (gozdrit_nack(receiver, 20, GOZDRIT_MAX_NACKED, &length, out, sizeof out) || length == 0) return 14;
    if (gozdrit_feedback(sender, out, length, &outcome) || outcome.kind != GOZDRIT_FEEDBACK) return 15;
    if (outcome.queued != 1) return 18;
    if (gozdrit_retransmit(sender, &sent, out, sizeof out)) return 16;
    if (gozdrit_receive(receiver, out, sent.length, 0, &received) || received.kind != GOZDRIT_RETRANSMISSION) return 17;
    return 0;
}

}  // namespace

int main() {
    Sender sender;
    Receiver receiver;
    const gozdrit_header header = gozdrit_header();
    uint8_t out[GOZDRIT_MAX_DATAGRAM];
    gozdrit_sent sent = GOZDRIT_SENT_INIT;
    gozdrit_received received = GOZDRIT_RECEIVED_INIT;
    if (gozdrit_version() != GOZDRIT_VERSION || gozdrit_max_payload() != GOZDRIT_MAX_PAYLOAD) return 1;
    if (!sender.handle.held || !receiver.handle.held) return 2;
    if (!are_blank()) return 6;
    for (int i = 0; i < 3; i++) {
        if (gozdrit_send(&sender.handle, &header, said, sizeof said, 0, &sent, out, sizeof out)) return 3;
        if (i > 0) continue;
        if (gozdrit_receive(&receiver.handle, out, sent.length, 0, &received) || received.kind != GOZDRIT_MEDIA) return 4;
    }
    const int failed = repair(&sender.handle, &receiver.handle);
    if (failed) return failed;
    for (uint64_t sequence = 65537; sequence < 65540; sequence++) {
        if (!plays(&receiver.handle, sequence)) return 5;
    }
    return std::strcmp(gozdrit_refusal_name(GOZDRIT_EMPTY_HANDLE), "EmptyHandle") != 0;
}
