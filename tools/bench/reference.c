/* The driver core's calls in plain C, with the same interface (records by value, in and out; slices as pointer and length) and the
   same checks, and the same rounds over them as crates/rounds. Both programs must print the same numbers. */
#include <stdbool.h>
#include <stddef.h>
#include <stdint.h>
#include <stdio.h>
#include <unistd.h>

/* ---- rings */

enum { QUEUE_MOST = 3, SIZE_LEAST = 32, SIZE_MOST = 4096, SIZE_STEP = 32 };

static inline bool place_ok(size_t queue, size_t size, size_t head, size_t posted)
{
    return queue <= QUEUE_MOST && size >= SIZE_LEAST && size <= SIZE_MOST && size % SIZE_STEP == 0 && head < size && posted < size;
}

/* posted + ever_returned = ever_posted; the difference is taken only where it cannot wrap */
static inline bool counts_ok(size_t posted, uint64_t ever_posted, uint64_t ever_returned)
{
    return ever_returned <= ever_posted && ever_posted - ever_returned == posted;
}

/* the slot at distance k from head, less than a lap */
static inline size_t slot(size_t head, size_t size, size_t k)
{
    size_t at = head + k;
    return at < size ? at : at - size;
}

static inline bool address_wrong(uint64_t address, uint64_t length)
{
    return address == 0 || address - 1 > UINT64_MAX - length;
}

/* ---- receiving */

enum { DATA_SLOTS = 5, PACKET_SLOTS = DATA_SLOTS + 1, BUFFER_LEAST = 1024, BUFFER_MOST = 16256, BUFFER_STEP = 128, BURST_PACKETS = 32, BURST_NUMBERS = 3 * BURST_PACKETS };
enum family { FAMILY_UNKNOWN, FAMILY_MAC, FAMILY_ARP, FAMILY_IPV4, FAMILY_IPV6 };
enum verdict { NOT_CHECKED, GOOD, BAD };

struct rx_queue {
    size_t queue, size, head, posted;
    uint64_t ever_posted, ever_returned;
    size_t buffer;
};

struct write_back {
    uint16_t tag;
    uint32_t hash;
    bool dd, eop, l2tag1p, l3l4p, crcp;
    uint8_t umbcast, fltstat;
    bool lpbk, ipv6exadd, int_udp_0;
    uint8_t l3, l4;
    bool oversize;
    uint8_t ptype;
    size_t length;
    uint8_t family;
};

struct rx_answer {
    uint8_t answer;
    struct rx_queue queue;
};

struct packet {
    size_t count, total;
    uint64_t addresses[PACKET_SLOTS];
    size_t lengths[PACKET_SLOTS];
    struct write_back last;
};

struct rx_taken {
    uint8_t answer;
    struct rx_queue queue;
    struct packet packet;
};

struct rx_burst {
    uint8_t answer;
    struct rx_queue queue;
    size_t packets, examined;
};

static inline bool rx_record_ok(struct rx_queue q)
{
    return place_ok(q.queue, q.size, q.head, q.posted) && counts_ok(q.posted, q.ever_posted, q.ever_returned) && q.buffer >= BUFFER_LEAST && q.buffer <= BUFFER_MOST && q.buffer % BUFFER_STEP == 0;
}

static inline bool rx_lent_ok(struct rx_queue q, size_t ring_length, size_t list_length)
{
    return rx_record_ok(q) && ring_length == 2 * q.size && list_length == q.size;
}

static struct rx_answer rx_fresh(size_t queue, size_t size, size_t buffer)
{
    struct rx_queue q = { .queue = queue, .size = size, .buffer = buffer };
    if (!rx_record_ok(q))
        return (struct rx_answer){ .answer = 1 };
    return (struct rx_answer){ 0, q };
}

static struct rx_answer rx_post(struct rx_queue q, uint64_t *restrict ring, size_t ring_length, uint64_t *restrict list, size_t list_length, uint64_t address)
{
    if (!rx_lent_ok(q, ring_length, list_length))
        return (struct rx_answer){ 1, q };
    if (address_wrong(address, q.buffer))
        return (struct rx_answer){ 2, q };
    if (q.posted == q.size - 1 || q.ever_posted == UINT64_MAX)
        return (struct rx_answer){ 3, q };
    size_t tail = slot(q.head, q.size, q.posted);
    ring[2 * tail] = address;
    ring[2 * tail + 1] = 0;
    list[tail] = address;
    q.posted++;
    q.ever_posted++;
    return (struct rx_answer){ 0, q };
}

enum type_l4 { TYPE_NONE, TYPE_TCP, TYPE_SCTP, TYPE_UDP, TYPE_ICMP };

struct entry {
    uint8_t family, version;
    bool fragment;
    uint8_t l4;
};

#define IP(first, f, v) \
    [first] = { f, v, true, TYPE_NONE }, [first + 1] = { f, v, false, TYPE_NONE }, [first + 2] = { f, v, false, TYPE_UDP }, \
    [first + 4] = { f, v, false, TYPE_TCP }, [first + 5] = { f, v, false, TYPE_SCTP }, [first + 6] = { f, v, false, TYPE_ICMP }

static const struct entry types[256] = {
    [1] = { FAMILY_MAC, 0, false, TYPE_NONE },
    [11] = { FAMILY_ARP, 0, false, TYPE_NONE },
    IP(22, FAMILY_IPV4, 4),
    IP(88, FAMILY_IPV6, 6),
};

static inline struct entry packet_type(uint8_t ptype)
{
    return types[ptype];
}

static inline struct entry entry_of(uint8_t ptype)
{
    switch (ptype) {
    case 1: return (struct entry){ FAMILY_MAC, 0, false, TYPE_NONE };
    case 11: return (struct entry){ FAMILY_ARP, 0, false, TYPE_NONE };
    case 22: return (struct entry){ FAMILY_IPV4, 4, true, TYPE_NONE };
    case 23: return (struct entry){ FAMILY_IPV4, 4, false, TYPE_NONE };
    case 24: return (struct entry){ FAMILY_IPV4, 4, false, TYPE_UDP };
    case 26: return (struct entry){ FAMILY_IPV4, 4, false, TYPE_TCP };
    case 27: return (struct entry){ FAMILY_IPV4, 4, false, TYPE_SCTP };
    case 28: return (struct entry){ FAMILY_IPV4, 4, false, TYPE_ICMP };
    case 88: return (struct entry){ FAMILY_IPV6, 6, true, TYPE_NONE };
    case 89: return (struct entry){ FAMILY_IPV6, 6, false, TYPE_NONE };
    case 90: return (struct entry){ FAMILY_IPV6, 6, false, TYPE_UDP };
    case 92: return (struct entry){ FAMILY_IPV6, 6, false, TYPE_TCP };
    case 93: return (struct entry){ FAMILY_IPV6, 6, false, TYPE_SCTP };
    case 94: return (struct entry){ FAMILY_IPV6, 6, false, TYPE_ICMP };
    default: return (struct entry){ FAMILY_UNKNOWN, 0, false, TYPE_NONE };
    }
}

#define FIELD(word, at, width) ((word) >> (at) & ((1ull << (width)) - 1))

static inline enum verdict by_bit(bool wrong)
{
    return wrong ? BAD : GOOD;
}

/* of a packet that the device has checked; unknown types and fragments have no L4 kind */
static inline enum verdict l4_verdict(struct entry e, uint64_t word1)
{
    switch (e.l4) {
    case TYPE_UDP:
        if (FIELD(word1, 18, 1))
            return e.family == FAMILY_IPV6 ? BAD : NOT_CHECKED;
        /* fall through */
    case TYPE_TCP:
    case TYPE_SCTP:
        return FIELD(word1, 15, 1) ? NOT_CHECKED : by_bit(FIELD(word1, 23, 1));
    default:
        return NOT_CHECKED;
    }
}

static inline struct write_back read_write_back(uint64_t word0, uint64_t word1)
{
    struct write_back w;
    w.dd = FIELD(word1, 0, 1);
    w.eop = FIELD(word1, 1, 1);
    w.l2tag1p = FIELD(word1, 2, 1);
    w.l3l4p = FIELD(word1, 3, 1);
    w.crcp = FIELD(word1, 4, 1);
    w.umbcast = FIELD(word1, 9, 2);
    w.fltstat = FIELD(word1, 12, 2);
    w.lpbk = FIELD(word1, 14, 1);
    w.ipv6exadd = FIELD(word1, 15, 1);
    w.int_udp_0 = FIELD(word1, 18, 1);
    w.oversize = FIELD(word1, 25, 1);
    w.ptype = FIELD(word1, 30, 8);
    w.length = FIELD(word1, 38, 14);
    w.tag = w.l2tag1p ? FIELD(word0, 16, 16) : 0;
    w.hash = w.fltstat == 3 ? word0 >> 32 : 0;
    struct entry e = packet_type(w.ptype);
    w.family = e.family;
    w.l3 = w.l3l4p && e.family == FAMILY_IPV4 ? by_bit(FIELD(word1, 22, 1)) : NOT_CHECKED;
    w.l4 = w.l3l4p ? l4_verdict(e, word1) : NOT_CHECKED;
    return w;
}

static inline struct rx_taken rx_refused(struct rx_queue q, uint8_t answer)
{
    return (struct rx_taken){ .answer = answer, .queue = q };
}

static struct rx_taken rx_take(struct rx_queue q, const uint64_t *ring, size_t ring_length, const uint64_t *list, size_t list_length)
{
    if (!rx_lent_ok(q, ring_length, list_length))
        return rx_refused(q, 1);
    struct rx_taken t = { .answer = 0, .queue = q };
    size_t at = q.head;
    for (size_t k = 0; k < q.posted; k++) {
        uint64_t word1 = ring[2 * at + 1];
        bool last = word1 & 2;
        size_t length = FIELD(word1, 38, 14);
        if (!(word1 & 1))
            return rx_refused(q, 4);
        if (length > q.buffer || (length == 0 ? !last || k == 0 : k >= DATA_SLOTS))
            return rx_refused(q, 5);
        t.packet.addresses[k] = list[at];
        t.packet.lengths[k] = length;
        t.packet.total += length;
        if (last) {
            t.packet.last = read_write_back(ring[2 * at], word1);
            t.packet.count = k + 1;
            t.queue.head = at + 1 == q.size ? 0 : at + 1;
            t.queue.posted -= k + 1;
            t.queue.ever_returned += k + 1;
            return t;
        }
        if (++at == q.size)
            at = 0;
    }
    return rx_refused(q, 4);
}

/* the list is lent as to a take, and only its length is looked at */
static struct rx_burst rx_burst(struct rx_queue q, const uint64_t *ring, size_t ring_length, const uint64_t *list, size_t list_length, uint64_t *restrict out, size_t out_length, size_t limit)
{
    (void)list;
    struct rx_burst b = { .answer = 0, .queue = q };
    if (!rx_lent_ok(q, ring_length, list_length) || out_length != BURST_NUMBERS) {
        b.answer = 1;
        return b;
    }
    if (limit == 0 || limit > BURST_PACKETS) {
        b.answer = 10;
        return b;
    }
    while (b.packets < limit) {
        size_t at = b.queue.head, total = 0, k = 0;
        bool last;
        do {
            if (k == b.queue.posted) {
                b.answer = 4;
                goto out;
            }
            uint64_t word1 = ring[2 * at + 1];
            size_t length = FIELD(word1, 38, 14);
            last = word1 & 2;
            b.examined++;
            if (!(word1 & 1)) {
                b.answer = 4;
                goto out;
            }
            if (length > q.buffer || (length == 0 ? !last || k == 0 : k >= DATA_SLOTS)) {
                b.answer = 5;
                goto out;
            }
            total += length;
            k++;
            if (++at == q.size)
                at = 0;
        } while (!last);
        out[3 * b.packets] = b.queue.head;
        out[3 * b.packets + 1] = k;
        out[3 * b.packets + 2] = total;
        b.queue.head = at;
        b.queue.posted -= k;
        b.packets++;
    }
out:
    b.queue.ever_returned += q.posted - b.queue.posted;
    return b;
}

/* ---- sending */

enum { FRAME_LEAST = 1518, FRAME_MOST = 9728, LENGTH_MOST = 16383, PLAIN_PIECES = 8, MOST_PIECES = 4094, TOTAL_LEAST = 17, HEADER_MOST = 512, HEADER_PIECES = 3, TLEN_MOST = 262143, MSS_LEAST = 88, TAG_MOST = 65535, TOUCHED_MOST = 8 };
enum ip_kind { IP_NONE, IP_V6, IP_V4, IP_V4_CHECKSUM };
enum l4_kind { L4_NONE, L4_TCP, L4_SCTP, L4_UDP };

struct tx_queue {
    size_t queue, size, head, posted;
    uint64_t ever_posted, ever_returned;
    size_t frame;
};

struct tx_request {
    uint8_t ip, l4;
    uint64_t mac_length, ip_length, l4_length;
    bool vlan;
    uint64_t tag;
    bool segmented;
    uint64_t mss, tlen;
};

struct tx_answer {
    uint8_t answer;
    struct tx_queue queue;
};

struct tx_sent {
    uint8_t answer;
    struct tx_queue queue;
    size_t slots;
};

struct tx_reclaimed {
    uint8_t answer;
    struct tx_queue queue;
    uint64_t token;
    size_t count;
};

static inline bool tx_record_ok(struct tx_queue q)
{
    return place_ok(q.queue, q.size, q.head, q.posted) && counts_ok(q.posted, q.ever_posted, q.ever_returned) && q.frame >= FRAME_LEAST && q.frame <= FRAME_MOST;
}

static inline bool tx_lent_ok(struct tx_queue q, size_t ring_length, size_t tokens_length, size_t counts_length)
{
    return tx_record_ok(q) && ring_length == 2 * q.size && tokens_length == q.size && counts_length == q.size;
}

static struct tx_answer tx_fresh(size_t queue, size_t size, size_t frame)
{
    struct tx_queue q = { .queue = queue, .size = size, .frame = frame };
    if (!tx_record_ok(q))
        return (struct tx_answer){ .answer = 1 };
    return (struct tx_answer){ 0, q };
}

static inline bool in_steps(uint64_t least, uint64_t most, uint64_t step, uint64_t n)
{
    return n >= least && n <= most && n % step == 0;
}

static bool headers_ok(struct tx_request r)
{
    if (r.ip == IP_NONE)
        return r.l4 == L4_NONE && r.mac_length == 0 && r.ip_length == 0 && r.l4_length == 0 && !r.segmented;
    if (!in_steps(14, 254, 2, r.mac_length))
        return false;
    if (r.ip == IP_V6 ? !in_steps(40, 508, 4, r.ip_length) : !in_steps(20, 60, 4, r.ip_length))
        return false;
    switch (r.l4) {
    case L4_TCP:
        return in_steps(20, 60, 4, r.l4_length);
    case L4_SCTP:
        return r.l4_length == 12;
    case L4_UDP:
        return r.l4_length == 8;
    default:
        return r.l4_length == 0;
    }
}

static bool header_within(const uint64_t *lengths, size_t n, uint64_t header)
{
    uint64_t first = 0;
    for (size_t i = 0; i < n && i < HEADER_PIECES; i++)
        first += lengths[i];
    return header <= first;
}

static bool request_ok(const uint64_t *lengths, size_t n, uint64_t total, size_t frame, struct tx_request r)
{
    if (!headers_ok(r))
        return false;
    uint64_t header = r.mac_length + r.ip_length + r.l4_length;
    if (header > total || r.tag > TAG_MOST || (!r.vlan && r.tag != 0))
        return false;
    if (!r.segmented)
        return r.mss == 0 && r.tlen == 0;
    return r.l4 == L4_TCP && (r.ip == IP_V6 || r.ip == IP_V4_CHECKSUM) && header <= HEADER_MOST && header_within(lengths, n, header)
        && r.tlen >= 1 && r.tlen <= TLEN_MOST && r.mss >= MSS_LEAST && r.mss <= frame - header;
}

/* Whether some segment touches over 8 pieces: one walk over the pieces, with the count of the segment in hand. */
static bool crowded(const uint64_t *lengths, size_t n, uint64_t header, uint64_t mss)
{
    if (n <= TOUCHED_MOST)
        return false;
    uint64_t bytes = 0;
    size_t headed = 0;
    while (bytes < header)
        bytes += lengths[headed++];
    uint64_t end = bytes - header;
    uint64_t next = end - end % mss + mss;
    size_t touched = headed;
    for (size_t i = headed; i < n; i++) {
        if (++touched > TOUCHED_MOST)
            return true;
        end += lengths[i];
        if (end >= next) {
            uint64_t into = end % mss;
            next = end - into + mss;
            touched = headed + (into != 0);
        }
    }
    return false;
}

static uint8_t judge(const uint64_t *addresses, size_t addresses_length, const uint64_t *lengths, size_t n, size_t frame, struct tx_request r)
{
    if (addresses_length != n || n < 1 || n > (r.segmented ? MOST_PIECES : PLAIN_PIECES))
        return 6;
    uint64_t total = 0;
    bool wrong = false;
    for (size_t i = 0; i < n; i++) {
        uint64_t length = lengths[i];
        if (length - 1 >= LENGTH_MOST)
            return 6;
        total += length;
        wrong |= address_wrong(addresses[i], length);
    }
    if (r.segmented) {
        const uint64_t most = (uint64_t)MOST_PIECES * LENGTH_MOST;
        if (r.mac_length > most || r.ip_length > most || r.l4_length > most || r.tlen > most)
            return 6;
        if (total != r.mac_length + r.ip_length + r.l4_length + r.tlen)
            return 6;
    } else if (total < TOTAL_LEAST || total > frame) {
        return 6;
    }
    if (wrong)
        return 2;
    if (!request_ok(lengths, n, total, frame, r))
        return 7;
    if (r.segmented && crowded(lengths, n, r.mac_length + r.ip_length + r.l4_length, r.mss))
        return 8;
    return 0;
}

static uint64_t data_word(struct tx_request r)
{
    return 0x40 | (uint64_t)r.vlan << 7 | (uint64_t)r.ip << 9 | (uint64_t)r.l4 << 12 | r.mac_length / 2 << 16 | r.ip_length / 4 << 23 | r.l4_length / 4 << 30 | r.tag << 48;
}

static struct tx_sent tx_send(struct tx_queue q, uint64_t *restrict ring, size_t ring_length, uint64_t *restrict tokens, size_t tokens_length, uint16_t *restrict counts, size_t counts_length, const uint64_t *restrict addresses, size_t addresses_length, const uint64_t *restrict lengths, size_t n, uint64_t token, struct tx_request r)
{
    if (!tx_lent_ok(q, ring_length, tokens_length, counts_length))
        return (struct tx_sent){ 1, q, 0 };
    uint8_t answer = judge(addresses, addresses_length, lengths, n, q.frame, r);
    if (answer != 0)
        return (struct tx_sent){ answer, q, 0 };
    size_t slots = n + r.segmented;
    if (slots > q.size - 1 - q.posted || slots > UINT64_MAX - q.ever_posted)
        return (struct tx_sent){ 3, q, 0 };
    size_t tail = slot(q.head, q.size, q.posted);
    tokens[tail] = token;
    counts[tail] = slots;
    if (r.segmented) {
        ring[2 * tail] = 0;
        ring[2 * tail + 1] = 0x11 | r.tlen << 30 | r.mss << 50;
        tail = slot(tail, q.size, 1);
    }
    uint64_t alike = data_word(r);
    for (size_t i = 0; i < n - 1; i++) {
        ring[2 * tail] = addresses[i];
        ring[2 * tail + 1] = alike | lengths[i] << 34;
        if (++tail == q.size)
            tail = 0;
    }
    ring[2 * tail] = addresses[n - 1];
    ring[2 * tail + 1] = alike | lengths[n - 1] << 34 | 0x30;
    q.posted += slots;
    q.ever_posted += slots;
    return (struct tx_sent){ 0, q, slots };
}

static struct tx_reclaimed tx_reclaim(struct tx_queue q, const uint64_t *ring, size_t ring_length, const uint64_t *tokens, size_t tokens_length, const uint16_t *counts, size_t counts_length)
{
    if (!tx_lent_ok(q, ring_length, tokens_length, counts_length))
        return (struct tx_reclaimed){ 1, q, 0, 0 };
    if (q.posted == 0)
        return (struct tx_reclaimed){ 4, q, 0, 0 };
    size_t count = counts[q.head];
    if (count == 0 || count > q.posted)
        return (struct tx_reclaimed){ 5, q, 0, 0 };
    size_t last = slot(q.head, q.size, count - 1);
    if ((ring[2 * last + 1] & 15) != 15)
        return (struct tx_reclaimed){ 4, q, 0, 0 };
    uint64_t token = tokens[q.head];
    q.head = slot(q.head, q.size, count);
    q.posted -= count;
    q.ever_returned += count;
    return (struct tx_reclaimed){ 0, q, token, count };
}

/* ---- interrupt words */

enum enable { ENABLE_ON, ENABLE_OFF, ENABLE_LEAVE };

struct int_request {
    uint64_t vector;
    uint8_t enable;
    bool write_back, clear, trigger;
    uint64_t trigger_index, index, interval;
};

struct int_answer {
    uint8_t answer;
    uint64_t offset, word;
};

static struct int_answer interrupt_word(struct int_request r)
{
    if (r.vector > 64 || r.index > 3 || r.trigger_index > 3 || r.interval > 8160 || r.interval % 2 != 0 || (r.interval != 0 && r.index == 3) || (r.trigger_index != 0 && !r.trigger) || (r.write_back && r.enable != ENABLE_OFF))
        return (struct int_answer){ 9, 0, 0 };
    uint64_t word = (uint64_t)(r.enable == ENABLE_ON) | (uint64_t)r.clear << 1 | (uint64_t)r.trigger << 2 | r.index << 3 | r.interval / 2 << 5 | (uint64_t)r.trigger << 24 | r.trigger_index << 25 | (uint64_t)r.write_back << 30 | (uint64_t)(r.enable == ENABLE_LEAVE) << 31;
    return (struct int_answer){ 0, r.vector == 0 ? 0x5C00 : 0x3800 + 4 * (r.vector - 1), word };
}

/* ---- one number over all results */

static inline uint64_t mix(uint64_t sum, uint64_t x)
{
    return (sum << 7 | sum >> 57) + x;
}

static inline uint64_t mix_taken(uint64_t sum, const struct rx_taken *t)
{
    const struct packet *p = &t->packet;
    const struct write_back *w = &p->last;
    sum = mix(mix(mix(sum, t->answer), p->count), p->total);
    for (int k = 0; k < PACKET_SLOTS; k++)
        sum = mix(sum, p->addresses[k]);
    for (int k = 0; k < PACKET_SLOTS; k++)
        sum = mix(sum, p->lengths[k]);
    sum = mix(mix(mix(mix(sum, w->dd), w->eop), w->l2tag1p), w->l3l4p);
    sum = mix(mix(mix(mix(sum, w->crcp), w->lpbk), w->ipv6exadd), w->int_udp_0);
    sum = mix(mix(mix(sum, w->l3), w->l4), w->oversize);
    sum = mix(mix(sum, w->tag), w->hash);
    sum = mix(mix(mix(sum, w->umbcast), w->fltstat), w->ptype);
    return mix(mix(sum, w->length), w->family);
}

/* lent memory as a run left it */
static uint64_t mix_list(uint64_t sum, const uint64_t *list, size_t length)
{
    for (size_t i = 0; i < length; i++)
        sum = mix(sum, list[i]);
    return sum;
}

/* ---- the device's side */

static inline void set(uint64_t *list, size_t length, size_t at, uint64_t value)
{
    if (at < length)
        list[at] = value;
}

static inline size_t further(size_t at, size_t by, size_t size)
{
    if (at >= size)
        return 0;
    size_t room = size - at;
    return by < room ? at + by : by - room < size ? by - room : 0;
}

static inline void mark(uint64_t *ring, size_t ring_length, size_t last)
{
    if (last < SIZE_MOST)
        set(ring, ring_length, 2 * last + 1, 15);
}

/* ---- rounds of receiving */

enum { BUFFER = 2048 };

struct rx_run {
    struct rx_queue queue;
    uint64_t sum;
    size_t at;
};

static inline uint64_t rx_address(uint64_t i)
{
    return 0x100000 | i % 4096 << 11;
}

static inline uint64_t middle_word(void)
{
    return 1 | 2048ull << 38;
}

static inline uint64_t last_word(uint64_t i)
{
    return 0x68000300B | (64 + i % 1024) << 38;
}

/* an empty last slot */
static inline uint64_t empty_word(void)
{
    return 0x68000300B;
}

static inline void device_writes(uint64_t *ring, size_t ring_length, size_t at, uint64_t word0, uint64_t word1)
{
    if (at < SIZE_MOST) {
        set(ring, ring_length, 2 * at, word0);
        set(ring, ring_length, 2 * at + 1, word1);
    }
}

static struct rx_run rx_start(size_t size)
{
    struct rx_answer f = rx_fresh(0, size, BUFFER);
    return (struct rx_run){ f.queue, mix(0, f.answer), 0 };
}

static uint64_t rx_end(struct rx_run run, const uint64_t *ring, size_t ring_length)
{
    struct rx_queue q = run.queue;
    uint64_t sum = mix(mix(mix(mix(run.sum, q.queue), q.size), q.head), q.posted);
    return mix_list(mix(mix(mix(sum, q.ever_posted), q.ever_returned), q.buffer), ring, ring_length);
}

static inline struct rx_run fill(struct rx_run run, uint64_t *restrict ring, size_t ring_length, uint64_t *restrict list, size_t list_length, uint64_t i, uint64_t word1, bool idle)
{
    struct rx_answer posted = idle ? (struct rx_answer){ 0, run.queue } : rx_post(run.queue, ring, ring_length, list, list_length, rx_address(i));
    device_writes(ring, ring_length, run.at, i << 32 | 0x123, word1);
    return (struct rx_run){ posted.queue, mix(run.sum, posted.answer), further(run.at, 1, list_length) };
}

/* the packet that an idle run sums up */
static struct rx_taken one_packet(struct rx_run run, uint64_t *restrict ring, size_t ring_length, uint64_t *restrict list, size_t list_length, uint64_t rounds)
{
    struct rx_run filled = fill(run, ring, ring_length, list, list_length, rounds, last_word(rounds), false);
    return rx_take(filled.queue, ring, ring_length, list, list_length);
}

static uint64_t rx_rounds(uint64_t *restrict ring, size_t ring_length, uint64_t *restrict list, size_t list_length, uint64_t slots, bool idle, uint64_t rounds)
{
    struct rx_run run = rx_start(list_length);
    struct rx_taken seen = one_packet(run, ring, ring_length, list, list_length, rounds);
    for (uint64_t i = 0; i < rounds; i++) {
        for (uint64_t k = 1; k < slots; k++)
            run = fill(run, ring, ring_length, list, list_length, i, middle_word(), idle);
        run = fill(run, ring, ring_length, list, list_length, i, slots < PACKET_SLOTS ? last_word(i) : empty_word(), idle);
        struct rx_taken taken = idle ? seen : rx_take(run.queue, ring, ring_length, list, list_length);
        run.queue = taken.queue;
        run.sum = mix_taken(run.sum, &taken);
    }
    return rx_end(run, ring, ring_length);
}

/* ---- rounds of polling */

/* a ring that is full of packets of one slot */
static void fill_ring(uint64_t *ring, size_t ring_length, size_t size)
{
    for (size_t at = 0; at < size; at++)
        device_writes(ring, ring_length, at, (uint64_t)at << 32 | 0x123, last_word(at));
}

/* so many packets wait from head on, the first of them just written; ever_posted moves with posted */
static inline struct rx_queue with_packets(struct rx_queue q, size_t packets, uint64_t *ring, size_t ring_length, uint64_t i)
{
    device_writes(ring, ring_length, q.head, i << 32 | 0x123, last_word(i));
    q.ever_posted += packets - q.posted;
    q.posted = packets;
    return q;
}

static uint64_t burst_rounds(uint64_t *restrict ring, size_t ring_length, const uint64_t *restrict list, size_t list_length, size_t packets, bool idle, uint64_t rounds)
{
    uint64_t out[BURST_NUMBERS] = { 0 };
    struct rx_run run = rx_start(list_length);
    fill_ring(ring, ring_length, list_length);
    for (uint64_t i = 0; i < rounds; i++) {
        struct rx_queue q = with_packets(run.queue, packets, ring, ring_length, i);
        struct rx_burst b = idle ? (struct rx_burst){ 0, q, packets, packets } : rx_burst(q, ring, ring_length, list, list_length, out, BURST_NUMBERS, packets);
        run.queue = b.queue;
        run.sum = mix_list(mix(mix(mix(run.sum, b.answer), b.packets), b.examined), out, BURST_NUMBERS);
    }
    return rx_end(run, ring, ring_length);
}

static uint64_t take_rounds(uint64_t *restrict ring, size_t ring_length, const uint64_t *restrict list, size_t list_length, size_t packets, bool idle, uint64_t rounds)
{
    struct rx_run run = rx_start(list_length);
    fill_ring(ring, ring_length, list_length);
    struct rx_taken seen = rx_take(with_packets(run.queue, 1, ring, ring_length, rounds), ring, ring_length, list, list_length);
    for (uint64_t i = 0; i < rounds; i++) {
        run.queue = with_packets(run.queue, packets, ring, ring_length, i);
        for (size_t k = 0; k < packets; k++) {
            struct rx_taken taken = idle ? seen : rx_take(run.queue, ring, ring_length, list, list_length);
            run.queue = taken.queue;
            run.sum = mix_taken(run.sum, &taken);
        }
    }
    return rx_end(run, ring, ring_length);
}

/* ---- rounds of sending */

enum { FRAME = 1518, PLAIN_PIECE = 100, HEADER_PIECE = 54 };

struct tx_run {
    struct tx_queue queue;
    uint64_t sum;
    size_t last;
};

struct asked {
    uint64_t first, behind, mss;
    bool idle;
    uint64_t rounds;
};

static inline struct tx_request request_of(struct asked a, uint64_t i)
{
    return (struct tx_request){ IP_V4_CHECKSUM, L4_TCP, 14, 20, 20, true, i % 4096, a.mss != 0, a.mss, a.mss == 0 ? 0 : a.behind };
}

static inline uint64_t tx_address(uint64_t i)
{
    return 0x100000 | i % 65536 << 14;
}

static void lay_out(uint64_t *addresses, uint64_t *lengths, size_t n, uint64_t behind)
{
    uint64_t each = n < 2 ? 0 : behind / (n - 1), left = behind;
    for (size_t i = 1; i < n; i++) {
        addresses[i] = tx_address(i);
        lengths[i] = i + 1 < n ? each : left;
        left -= each;
    }
}

static struct tx_run tx_start(size_t size)
{
    struct tx_answer f = tx_fresh(0, size, FRAME);
    return (struct tx_run){ f.queue, mix(0, f.answer), size == 0 ? 0 : size - 1 };
}

static uint64_t tx_end(struct tx_run run, const uint64_t *ring, size_t ring_length)
{
    struct tx_queue q = run.queue;
    uint64_t sum = mix(mix(mix(mix(run.sum, q.queue), q.size), q.head), q.posted);
    return mix_list(mix(mix(mix(sum, q.ever_posted), q.ever_returned), q.frame), ring, ring_length);
}

static uint64_t tx_rounds(uint64_t *restrict ring, size_t ring_length, uint64_t *restrict tokens, size_t tokens_length, uint16_t *restrict counts, size_t counts_length, uint64_t *restrict addresses, size_t addresses_length, uint64_t *restrict lengths, size_t n, struct asked a)
{
    lay_out(addresses, lengths, n, a.behind);
    struct tx_run run = tx_start(tokens_length);
    for (uint64_t i = 0; i < a.rounds; i++) {
        set(addresses, addresses_length, 0, tx_address(i));
        set(lengths, n, 0, a.first);
        struct tx_sent s = a.idle ? (struct tx_sent){ 0, run.queue, n } : tx_send(run.queue, ring, ring_length, tokens, tokens_length, counts, counts_length, addresses, addresses_length, lengths, n, i, request_of(a, i));
        run.sum = mix(mix(run.sum, s.answer), s.slots);
        run.last = further(run.last, s.slots, tokens_length);
        mark(ring, ring_length, run.last);
        struct tx_reclaimed r = a.idle ? (struct tx_reclaimed){ 0, s.queue, i, tokens_length } : tx_reclaim(s.queue, ring, ring_length, tokens, tokens_length, counts, counts_length);
        run.sum = mix(mix(mix(run.sum, r.answer), r.token), r.count);
        run.queue = r.queue;
    }
    return tx_end(run, ring, ring_length);
}

/* ---- rounds of interrupt words */

static inline struct int_request int_request_of(uint64_t i)
{
    return (struct int_request){ i % 64, i % 4 == 2 ? ENABLE_OFF : i % 4 == 3 ? ENABLE_LEAVE : ENABLE_ON, i % 4 == 2, i % 2 == 1, i % 8 < 4, 0, i / 4 % 2, i % 2048 * 2 };
}

static uint64_t int_rounds(bool idle, uint64_t rounds)
{
    uint64_t sum = 0;
    for (uint64_t i = 0; i < rounds; i++) {
        struct int_request r = int_request_of(i);
        struct int_answer a = idle ? (struct int_answer){ 0, r.vector, r.interval } : interrupt_word(r);
        sum = mix(mix(mix(sum, a.answer), a.offset), a.word);
    }
    return sum;
}

/* ---- rounds of packet types */

static inline uint64_t mix_entry(uint64_t sum, struct entry e)
{
    return mix(mix(mix(mix(sum, e.family), e.version), e.fragment), e.l4);
}

static uint64_t type_rounds(bool table, bool idle, uint64_t rounds)
{
    uint64_t sum = 0;
    for (uint64_t i = 0; i < rounds; i++) {
        uint8_t ptype = i % 256;
        sum = mix_entry(sum, idle ? (struct entry){ FAMILY_UNKNOWN, ptype, false, TYPE_NONE } : table ? packet_type(ptype) : entry_of(ptype));
    }
    return sum;
}

/* ---- lines of standard input: operation, idle, rounds, size, pieces, bytes behind the first, MSS */

enum { NUMBERS = 7, MOST_SLOTS = 4096 };

static inline size_t within(uint64_t n, size_t most)
{
    return n < most ? n : most;
}

static uint64_t received(const uint64_t *values)
{
    uint64_t ring[2 * MOST_SLOTS] = { 0 }, list[MOST_SLOTS] = { 0 };
    size_t size = within(values[3], MOST_SLOTS);
    return rx_rounds(ring, 2 * size, list, size, values[4], values[1] == 1, values[2]);
}

static uint64_t polled(const uint64_t *values)
{
    uint64_t ring[2 * MOST_SLOTS] = { 0 }, list[MOST_SLOTS] = { 0 };
    size_t size = within(values[3], MOST_SLOTS), packets = within(values[4], MOST_SLOTS);
    if (values[0] == 4)
        return burst_rounds(ring, 2 * size, list, size, packets, values[1] == 1, values[2]);
    return take_rounds(ring, 2 * size, list, size, packets, values[1] == 1, values[2]);
}

static uint64_t sent(const uint64_t *values)
{
    uint64_t ring[2 * MOST_SLOTS] = { 0 }, tokens[MOST_SLOTS] = { 0 }, addresses[MOST_PIECES] = { 0 }, lengths[MOST_PIECES] = { 0 };
    uint16_t counts[MOST_SLOTS] = { 0 };
    size_t size = within(values[3], MOST_SLOTS), n = within(values[4], MOST_PIECES);
    struct asked a = { values[6] == 0 ? PLAIN_PIECE : HEADER_PIECE, values[5], values[6], values[1] == 1, values[2] };
    return tx_rounds(ring, 2 * size, tokens, size, counts, size, addresses, n, lengths, n, a);
}

static uint64_t answer(const uint64_t *values)
{
    switch (values[0]) {
    case 1:
        return received(values);
    case 2:
        return sent(values);
    case 4:
    case 5:
        return polled(values);
    case 6:
    case 7:
        return type_rounds(values[0] == 6, values[1] == 1, values[2]);
    default:
        return int_rounds(values[1] == 1, values[2]);
    }
}

static void print_sizes(void)
{
#define SIZE(name, type) printf("%s %zu\n", name, sizeof(type))
    SIZE("the receive record", struct rx_queue);
    SIZE("Fresh and Posted (receive)", struct rx_answer);
    SIZE("Taken", struct rx_taken);
    SIZE("Burst", struct rx_burst);
    SIZE("Entry of a packet type", struct entry);
    SIZE("the transmit record", struct tx_queue);
    SIZE("Fresh (transmit)", struct tx_answer);
    SIZE("Sent", struct tx_sent);
    SIZE("Reclaimed", struct tx_reclaimed);
    SIZE("the offload request", struct tx_request);
    SIZE("the interrupt request", struct int_request);
    SIZE("Answer (interrupt)", struct int_answer);
}

int main(int argc, char **argv)
{
    (void)argv;
    if (argc > 1) {
        print_sizes();
        return 0;
    }
    unsigned char text[4096];
    ssize_t got = read(0, text, sizeof text);
    uint64_t values[NUMBERS] = { 0 };
    size_t at = 0;
    for (ssize_t i = 0; i < got; i++) {
        if (text[i] == '\n') {
            printf("%llu\n", (unsigned long long)answer(values));
            for (at = NUMBERS; at > 0; at--)
                values[at - 1] = 0;
        } else if (at < NUMBERS) {
            if (text[i] == ' ')
                at++;
            else
                values[at] = values[at] * 10 + text[i] % 16;
        }
    }
    return 0;
}
