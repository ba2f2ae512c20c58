// The same figures of OpenSSL's libcrypto, for comparison: `libcrypto KERNEL BITS COUNT`.
#define OPENSSL_SUPPRESS_DEPRECATED
#include <openssl/aes.h>
#include <openssl/evp.h>
#include <openssl/hmac.h>
#include <stdio.h>
#include <stdlib.h>
#include <string.h>

int main(int argc, char **argv) {
    if (argc < 4) return 2;
    const char *kernel = argv[1];
    int bits = atoi(argv[2]);
    long count = atol(argv[3]);
    unsigned char raw[32], block[16], sum[20] = {0}, text[1000];
    for (int i = 0; i < 32; i++) raw[i] = i;
    for (int i = 0; i < 16; i++) block[i] = 17 * i;
    memset(text, 'a', sizeof text);
    AES_KEY key;
    if (!strcmp(kernel, "aes-encrypt")) {
        AES_set_encrypt_key(raw, bits, &key);
        for (long i = 0; i < count; i++) AES_encrypt(block, block, &key);
    } else if (!strcmp(kernel, "aes-decrypt")) {
        AES_set_decrypt_key(raw, bits, &key);
        for (long i = 0; i < count; i++) AES_decrypt(block, block, &key);
    } else if (!strcmp(kernel, "key-schedule")) {
        for (long i = 0; i < count; i++) {
            AES_set_encrypt_key(raw, bits, &key);
            AES_KEY back;
            AES_set_decrypt_key(raw, bits, &back);
            AES_encrypt(block, block, &key);
            raw[0] ^= block[0] ^ (back.rd_key[0] & 0xff);
        }
    } else if (!strcmp(kernel, "string-to-key")) {
        PKCS5_PBKDF2_HMAC("password", 8, (const unsigned char *)"ATHENA.MIT.EDUraeburn", 21, count, EVP_sha1(), bits / 8, raw);
    } else if (!strcmp(kernel, "hmac")) {
        unsigned int length = 20;
        for (long i = 0; i < count; i++) HMAC(EVP_sha1(), sum, 20, text, sizeof text, sum, &length);
    }
    for (int i = 0; i < 16; i++) printf("%02x", block[i] ^ raw[i] ^ sum[i]);
    printf("\n");
    return 0;
}
