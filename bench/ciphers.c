// Checks closing and opening against OpenSSL's ChaCha20 and HMAC on random inputs, then times them beside two ChaCha20-Poly1305,
// which have a faster tag: they are a reference and not the same thing.
#include "measure.h"
#include <openssl/evp.h>
#include <openssl/hmac.h>
#include <sodium.h>
#include <stdbool.h>

typedef struct { uint8_t bytes[32]; } key_bytes;
typedef struct { uint8_t key[32]; uint32_t sums[16]; } closing_key;
void ciphers_key(key_bytes *key, closing_key *out);
bool ciphers_close(const closing_key *key, uint64_t n, const uint8_t *head, size_t head_size, uint8_t *bytes, size_t size);
bool ciphers_open(const closing_key *key, uint64_t n, const uint8_t *head, size_t head_size, uint8_t *bytes, size_t size);

enum { TAG = 16, HEAD = 8, LARGE = 1024 };
static uint8_t data[LARGE + TAG], copy[LARGE + TAG];
static uint8_t raw[32], nonce[12];
static closing_key ours;
static EVP_CIPHER_CTX *stream, *aead;

// The number in 8 bytes, high byte first.
static void number_bytes(uint64_t n, uint8_t out[8]) {
    for (int i = 0; i < 8; i++) out[i] = (uint8_t)(n >> (56 - 8 * i));
}

// ChaCha20 from block 1 under 4 zeros and the number, and 16 bytes of the HMAC over the head and what it gave.
static void expected_close(const uint8_t *key, uint64_t n, const uint8_t *head, size_t head_size, uint8_t *bytes, size_t size) {
    uint8_t both[16] = {1}, message[HEAD + LONGEST], sum[32];
    int written = 0;
    unsigned int sum_size = sizeof sum;
    number_bytes(n, both + 8);
    EVP_EncryptInit_ex(stream, NULL, NULL, key, both);
    EVP_EncryptUpdate(stream, bytes, &written, bytes, (int)size);
    memcpy(message, head, head_size);
    memcpy(message + head_size, bytes, size);
    HMAC(EVP_sha256(), key, 32, message, head_size + size, sum, &sum_size);
    memcpy(bytes + size, sum, TAG);
}

// Contents of every length from 0 to 700 with and without a head; what was closed opens, and with one bit changed it doesn't and stays as it is.
static int mismatches(void) {
    int wrong = 0;
    uint8_t before[LONGEST + TAG], theirs[LONGEST + TAG], mine[LONGEST + TAG], head[HEAD];
    for (int i = 0; i < INPUTS; i++) {
        size_t size = length_of(i, LONGEST), head_size = i % 2 ? HEAD : 0;
        uint64_t n = next() % 3 == 0 ? next() : next() % 4;
        closing_key kept = {{0}, {0}};
        key_bytes k;
        fill(raw, sizeof raw);
        memcpy(k.bytes, raw, sizeof raw);
        ciphers_key(&k, &kept);
        number_bytes(n, head);
        fill(before, size);
        memcpy(mine, before, size);
        memcpy(theirs, before, size);
        bool closed = ciphers_close(&kept, n, head, head_size, mine, size + TAG);
        expected_close(raw, n, head, head_size, theirs, size);
        wrong += !closed || memcmp(mine, theirs, size + TAG) != 0;
        size_t at = next() % (size + TAG);
        mine[at] ^= 1;
        wrong += ciphers_open(&kept, n, head, head_size, mine, size + TAG);
        mine[at] ^= 1;
        wrong += memcmp(mine, theirs, size + TAG) != 0;
        wrong += !ciphers_open(&kept, n, head, head_size, mine, size + TAG) || memcmp(mine, before, size) != 0;
    }
    return wrong;
}

static void ours_close(size_t n) { ciphers_close(&ours, 0, nonce, HEAD, data, n + TAG); sink ^= data[0]; }
static void sodium_close(size_t n) { crypto_aead_chacha20poly1305_ietf_encrypt(data, NULL, data, n, nonce, HEAD, NULL, nonce, raw); sink ^= data[0]; }
static void openssl_close(size_t n) {
    int written = 0;
    EVP_EncryptInit_ex(aead, NULL, NULL, raw, nonce);
    EVP_EncryptUpdate(aead, NULL, &written, nonce, HEAD);
    EVP_EncryptUpdate(aead, data, &written, data, (int)n);
    EVP_EncryptFinal_ex(aead, data + n, &written);
    EVP_CIPHER_CTX_ctrl(aead, EVP_CTRL_AEAD_GET_TAG, TAG, data + n);
    sink ^= data[0];
}

// Closed and opened again, so that each opening has something to open.
static void ours_both(size_t n) { ours_close(n); ciphers_open(&ours, 0, nonce, HEAD, data, n + TAG); sink ^= data[0]; }
static void sodium_both(size_t n) {
    sodium_close(n);
    sink ^= (uint8_t)crypto_aead_chacha20poly1305_ietf_decrypt(copy, NULL, NULL, data, n + TAG, nonce, HEAD, nonce, raw);
    sink ^= copy[0];
}

int main(void) {
    if (sodium_init() < 0) return 1;
    stream = EVP_CIPHER_CTX_new();
    aead = EVP_CIPHER_CTX_new();
    EVP_EncryptInit_ex(stream, EVP_chacha20(), NULL, NULL, NULL);
    EVP_EncryptInit_ex(aead, EVP_chacha20_poly1305(), NULL, NULL, NULL);
    int wrong = mismatches();
    printf("%d contents of 0 to %d bytes, closed, damaged and opened, against OpenSSL's parts: %d mismatches\n", INPUTS, LONGEST, wrong);
    if (wrong != 0) return 1;
    key_bytes k;
    fill(raw, sizeof raw);
    memcpy(k.bytes, raw, sizeof raw);
    ciphers_key(&k, &ours);
    const size_t sizes[] = {64, 256, 1024};
    void (*const closes[])(size_t) = {ours_close, openssl_close, sodium_close};
    const char *const names[] = {"ours", "OpenSSL Poly1305", "libsodium Poly1305"};
    table("closing: the time of each of the others, in times ours", names, closes, 3, sizes, 3);
    void (*const both[])(size_t) = {ours_both, sodium_both};
    const char *const pair[] = {"ours", "libsodium Poly1305"};
    table("closing and opening", pair, both, 2, sizes, 3);
    return 0;
}
