// Checks the library's hashes against OpenSSL's on random inputs, then times both, libsodium's and mbedTLS's.
#include "measure.h"
#include <mbedtls/md.h>
#include <mbedtls/sha256.h>
#include <openssl/evp.h>
#include <openssl/hmac.h>
#include <openssl/sha.h>
#include <sodium.h>

typedef struct { uint8_t bytes[32]; } output;
typedef struct { uint32_t words[16]; } kept_key;
void hashes_digest(const uint8_t *message, size_t size, output *out);
void hashes_hmac_key(const uint8_t *key, size_t size, kept_key *out);
void hashes_hmac_sum(const kept_key *key, const uint8_t *message, size_t size, output *out);

enum { LARGE = 16384 };
static uint8_t data[LARGE];
static uint8_t key[32];
static kept_key ours_key;
static crypto_auth_hmacsha256_state sodium_key;
static mbedtls_md_context_t mbedtls_key;
static HMAC_CTX *openssl_key;

// Inputs of every length from 0 to 700, keys from 0 to 150; the number of mismatches.
static int mismatches(void) {
    int wrong = 0;
    uint8_t message[LONGEST], k[150], expected[32];
    for (int i = 0; i < INPUTS; i++) {
        size_t size = length_of(i, LONGEST);
        size_t key_size = length_of(i, sizeof k);
        fill(message, size);
        fill(k, key_size);
        output out;
        hashes_digest(message, size, &out);
        SHA256(message, size, expected);
        wrong += memcmp(out.bytes, expected, 32) != 0;
        kept_key kept;
        unsigned int written = 32;
        hashes_hmac_key(k, key_size, &kept);
        hashes_hmac_sum(&kept, message, size, &out);
        HMAC(EVP_sha256(), k, (int)key_size, message, size, expected, &written);
        wrong += memcmp(out.bytes, expected, 32) != 0;
    }
    return wrong;
}

static void ours_digest(size_t n) { output o; hashes_digest(data, n, &o); sink ^= o.bytes[0]; }
static void openssl_digest(size_t n) { uint8_t o[32]; SHA256(data, n, o); sink ^= o[0]; }
static void sodium_digest(size_t n) { uint8_t o[32]; crypto_hash_sha256(o, data, n); sink ^= o[0]; }
static void mbedtls_digest(size_t n) { uint8_t o[32]; mbedtls_sha256(data, n, o, 0); sink ^= o[0]; }

static void ours_hmac(size_t n) { output o; hashes_hmac_sum(&ours_key, data, n, &o); sink ^= o.bytes[0]; }
static void openssl_hmac(size_t n) {
    uint8_t o[32];
    unsigned int written = 32;
    HMAC_Init_ex(openssl_key, NULL, 0, NULL, NULL);
    HMAC_Update(openssl_key, data, n);
    HMAC_Final(openssl_key, o, &written);
    sink ^= o[0];
}
// libsodium keeps a key as a copy of the state after its pads.
static void sodium_hmac(size_t n) {
    uint8_t o[32];
    crypto_auth_hmacsha256_state s = sodium_key;
    crypto_auth_hmacsha256_update(&s, data, n);
    crypto_auth_hmacsha256_final(&s, o);
    sink ^= o[0];
}
// What libsodium's one call does, which takes the key each time.
static void sodium_hmac_fresh(size_t n) { uint8_t o[32]; crypto_auth_hmacsha256(o, data, n, key); sink ^= o[0]; }
static void mbedtls_hmac(size_t n) {
    uint8_t o[32];
    mbedtls_md_hmac_reset(&mbedtls_key);
    mbedtls_md_hmac_update(&mbedtls_key, data, n);
    mbedtls_md_hmac_finish(&mbedtls_key, o);
    sink ^= o[0];
}

int main(void) {
    if (sodium_init() < 0) return 1;
    int wrong = mismatches();
    printf("%d inputs of 0 to %d bytes against OpenSSL, digest and HMAC: %d mismatches\n", INPUTS, LONGEST, wrong);
    if (wrong != 0) return 1;
    fill(data, sizeof data);
    fill(key, sizeof key);
    hashes_hmac_key(key, 32, &ours_key);
    crypto_auth_hmacsha256_init(&sodium_key, key, 32);
    mbedtls_md_init(&mbedtls_key);
    mbedtls_md_setup(&mbedtls_key, mbedtls_md_info_from_type(MBEDTLS_MD_SHA256), 1);
    mbedtls_md_hmac_starts(&mbedtls_key, key, 32);
    openssl_key = HMAC_CTX_new();
    HMAC_Init_ex(openssl_key, key, 32, EVP_sha256(), NULL);
    const size_t digest_sizes[] = {64, 256, 1024, 4096, 16384};
    void (*const digests[])(size_t) = {ours_digest, openssl_digest, sodium_digest, mbedtls_digest};
    const char *const digest_names[] = {"ours", "OpenSSL", "libsodium", "mbedTLS"};
    table("SHA-256: the time of each of the others, in times ours", digest_names, digests, 4, digest_sizes, 5);
    const size_t hmac_sizes[] = {1, 16, 64, 128, 256, 400};
    void (*const hmacs[])(size_t) = {ours_hmac, openssl_hmac, sodium_hmac, sodium_hmac_fresh, mbedtls_hmac};
    const char *const hmac_names[] = {"ours", "OpenSSL", "libsodium, kept", "libsodium, call", "mbedTLS"};
    table("HMAC-SHA-256 under a kept key: likewise", hmac_names, hmacs, 5, hmac_sizes, 6);
    return 0;
}
