// Checks the library's ChaCha20 against OpenSSL's on random inputs, then times both, libsodium's and mbedTLS's.
#include "measure.h"
#include <mbedtls/chacha20.h>
#include <openssl/evp.h>
#include <sodium.h>
#include <stdbool.h>

bool keystream_turn(const uint8_t key[32], uint32_t counter, const uint8_t nonce[12], uint8_t *bytes, size_t size);

enum { LARGE = 1024 };
static uint8_t data[LARGE];
static uint8_t key[32], nonce[12];
static EVP_CIPHER_CTX *openssl;

// OpenSSL takes the counter, low byte first, and the nonce as one.
static void openssl_turn_from(const uint8_t *k, uint32_t counter, const uint8_t *n, uint8_t *bytes, size_t size) {
    uint8_t both[16] = {(uint8_t)counter, (uint8_t)(counter >> 8), (uint8_t)(counter >> 16), (uint8_t)(counter >> 24)};
    int written = 0;
    memcpy(both + 4, n, 12);
    EVP_EncryptInit_ex(openssl, NULL, NULL, k, both);
    EVP_EncryptUpdate(openssl, bytes, &written, bytes, (int)size);
}

// Inputs of every length from 0 to 700 under other keys, counters and nonces; the number of mismatches.
static int mismatches(void) {
    int wrong = 0;
    uint8_t before[LONGEST], ours[LONGEST], theirs[LONGEST];
    for (int i = 0; i < INPUTS; i++) {
        size_t size = length_of(i, LONGEST);
        uint32_t counter = (uint32_t)next() % 0xfffffff0u;
        fill(key, sizeof key);
        fill(nonce, sizeof nonce);
        fill(before, size);
        memcpy(ours, before, size);
        memcpy(theirs, before, size);
        bool taken = keystream_turn(key, counter, nonce, ours, size);
        openssl_turn_from(key, counter, nonce, theirs, size);
        wrong += !taken || memcmp(ours, theirs, size) != 0;
    }
    return wrong;
}

static void ours_turn(size_t n) { keystream_turn(key, 1, nonce, data, n); sink ^= data[0]; }
static void openssl_turn(size_t n) { openssl_turn_from(key, 1, nonce, data, n); sink ^= data[0]; }
static void sodium_turn(size_t n) { crypto_stream_chacha20_ietf_xor_ic(data, data, n, nonce, 1, key); sink ^= data[0]; }
static void mbedtls_turn(size_t n) { mbedtls_chacha20_crypt(key, nonce, 1, n, data, data); sink ^= data[0]; }

int main(void) {
    if (sodium_init() < 0) return 1;
    openssl = EVP_CIPHER_CTX_new();
    EVP_EncryptInit_ex(openssl, EVP_chacha20(), NULL, NULL, NULL);
    int wrong = mismatches();
    printf("%d inputs of 0 to %d bytes against OpenSSL: %d mismatches\n", INPUTS, LONGEST, wrong);
    if (wrong != 0) return 1;
    fill(data, sizeof data);
    const size_t sizes[] = {64, 128, 256, 512, 1024};
    void (*const turns[])(size_t) = {ours_turn, openssl_turn, sodium_turn, mbedtls_turn};
    const char *const names[] = {"ours", "OpenSSL", "libsodium", "mbedTLS"};
    table("ChaCha20: the time of each of the others, in times ours", names, turns, 4, sizes, 5);
    return 0;
}
