// Prints keys of which all have the same low bits in a hash with its halves joined, so that they meet in one place of a map that
// hashes by it: in the library's quick hash, whose seed is fixed and public, or, of a kind that begins with fixed, in SipHash-1-3 by
// the fixed keys, which are 0. Arguments: the kind of key (name, async_name, flow_name, process or thread; fixed_name, fixed_counter,
// fixed_process or fixed_thread), how many, and how many bits. Found by trying one after the other.
#include <inttypes.h>
#include <stdio.h>
#include <stdlib.h>
#include <string.h>

static const uint64_t SEED = 0x243f6a8885a308d3, MULTIPLIER = 0x9e3779b97f4a7c15;

static uint64_t folded_multiply(uint64_t a, uint64_t b)
{
    unsigned __int128 product = (unsigned __int128)a * b;
    return (uint64_t)product ^ (uint64_t)(product >> 64);
}

// A number of so many bytes, at most eight.
static uint64_t with_number(uint64_t state, uint64_t number, uint64_t bytes)
{
    return folded_multiply(state ^ number, MULTIPLIER ^ (2 * bytes));
}

// Eight letters, each for four bits of the candidate.
static uint64_t letters_of(uint64_t candidate)
{
    uint64_t bits = candidate & 0xffffffff;
    bits = (bits | bits << 16) & 0x0000ffff0000ffff;
    bits = (bits | bits << 8) & 0x00ff00ff00ff00ff;
    bits = (bits | bits << 4) & 0x0f0f0f0f0f0f0f0f;
    return bits + 0x6161616161616161;
}

// The last eight letters of a name, which has twelve.
static uint64_t last_letters_of(uint64_t candidate)
{
    return letters_of(candidate >> 16);
}

// The byte that ends a text.
static uint64_t with_end(uint64_t state)
{
    return with_number(state, 0xff | 0xff << 8 | 0xff << 16, 1);
}

static uint64_t with_empty_text(uint64_t state)
{
    return with_end(with_number(state, 0, 0));
}

static uint64_t with_name(uint64_t state, uint64_t candidate)
{
    uint64_t first = letters_of(candidate), last = last_letters_of(candidate);
    return with_end(folded_multiply(first ^ (state + 12), last ^ MULTIPLIER));
}

static uint64_t hash_of_name(uint64_t candidate)
{
    return with_name(SEED, candidate);
}

// The name is the id of a flow without category and name, which come first. The id has no process.
static uint64_t hash_of_flow(uint64_t candidate)
{
    return with_name(with_number(with_empty_text(with_empty_text(SEED)), 0, 8), candidate);
}

// The same of an async span without category and scope, which come first, and without a name, which comes last.
static uint64_t hash_of_async(uint64_t candidate)
{
    return with_empty_text(hash_of_flow(candidate));
}

static uint64_t rotated(uint64_t word, int bits)
{
    return word << bits | word >> (64 - bits);
}

static void sip_round(uint64_t state[4])
{
    state[0] += state[1];
    state[2] += state[3];
    state[1] = rotated(state[1], 13) ^ state[0];
    state[3] = rotated(state[3], 16) ^ state[2];
    state[0] = rotated(state[0], 32) + state[3];
    state[2] += state[1];
    state[1] = rotated(state[1], 17) ^ state[2];
    state[3] = rotated(state[3], 21) ^ state[0];
    state[2] = rotated(state[2], 32);
}

static void sip_word(uint64_t state[4], uint64_t word)
{
    state[3] ^= word;
    sip_round(state);
    state[0] ^= word;
}

// Of whole words, and a last one that has the bytes left and how many there are.
static uint64_t fixed_hash_of(const uint64_t *words, int count)
{
    uint64_t state[] = {0x736f6d6570736575, 0x646f72616e646f6d, 0x6c7967656e657261, 0x7465646279746573};
    for (int place = 0; place < count; place++)
        sip_word(state, words[place]);
    state[2] ^= 0xff;
    for (int round = 0; round < 3; round++)
        sip_round(state);
    return state[0] ^ state[1] ^ state[2] ^ state[3];
}

// The last word has the last letters and the byte that ends a text.
static uint64_t fixed_hash_of_name(uint64_t candidate)
{
    uint64_t words[] = {letters_of(candidate), last_letters_of(candidate) >> 32 | 0xffull << 32 | 13ull << 56};
    return fixed_hash_of(words, 2);
}

// A counter of process 0, without an id: eight bytes of the process, the name and a byte that ends it, eight of the missing id.
static uint64_t fixed_hash_of_counter(uint64_t candidate)
{
    uint64_t words[] = {0, letters_of(candidate), last_letters_of(candidate) >> 32 | 0xffull << 32, 29ull << 56};
    return fixed_hash_of(words, 4);
}

static uint64_t fixed_hash_of_process(uint64_t candidate)
{
    uint64_t words[] = {candidate, 8ull << 56};
    return fixed_hash_of(words, 2);
}

// A thread of process 1.
static uint64_t fixed_hash_of_thread(uint64_t candidate)
{
    uint64_t words[] = {1, candidate, 16ull << 56};
    return fixed_hash_of(words, 3);
}

static void print_name(uint64_t candidate)
{
    char letters[13] = {0};
    uint64_t first = letters_of(candidate), last = last_letters_of(candidate);
    memcpy(letters, &first, 8);
    memcpy(letters + 4, &last, 8);
    puts(letters);
}

static void print_number(uint64_t candidate)
{
    printf("%" PRIu64 "\n", candidate);
}

static uint64_t hash_of_process(uint64_t candidate)
{
    return with_number(SEED, candidate, 8);
}

// A thread of process 1.
static uint64_t hash_of_thread(uint64_t candidate)
{
    return with_number(with_number(SEED, 1, 8), candidate, 8);
}

int main(int count, char **words)
{
    static const struct {
        const char *kind;
        uint64_t (*hash)(uint64_t);
        void (*print)(uint64_t);
    } kinds[] = {
        {"name", hash_of_name, print_name},
        {"async_name", hash_of_async, print_name},
        {"flow_name", hash_of_flow, print_name},
        {"fixed_name", fixed_hash_of_name, print_name},
        {"fixed_counter", fixed_hash_of_counter, print_name},
        {"process", hash_of_process, print_number},
        {"thread", hash_of_thread, print_number},
        {"fixed_process", fixed_hash_of_process, print_number},
        {"fixed_thread", fixed_hash_of_thread, print_number},
    };
    if (count != 4)
        return 2;
    long wanted = atol(words[2]);
    uint64_t mask = (1ull << atol(words[3])) - 1;
    for (size_t kind = 0; kind < sizeof kinds / sizeof *kinds; kind++) {
        if (strcmp(kinds[kind].kind, words[1]) != 0)
            continue;
        for (uint64_t candidate = 0; wanted > 0; candidate++) {
            uint64_t hash = kinds[kind].hash(candidate);
            if (((hash ^ hash >> 32) & mask) == 0) {
                kinds[kind].print(candidate);
                wanted--;
            }
        }
        return 0;
    }
    return 2;
}
