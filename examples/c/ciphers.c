/* A cipher of BearSSL over 64 bytes, whose key is in `key`: AES by tables (-DTABLES) or by bits (-DBITS), ChaCha20
   (-DCHACHA20), or HMAC with SHA-256 (-DHMAC). examples/c/ported.sh builds each. */
#include <bearssl.h>

unsigned char key[32] = "the key of a cipher, 32 bytes..", nonce[12] = "a nonce", text[64] = "the text";

int main(void)
{
#if defined TABLES
    br_aes_big_ctr_keys keys;
    br_aes_big_ctr_init(&keys, key, 16);
    br_aes_big_ctr_run(&keys, nonce, 1, text, sizeof text);
#elif defined BITS
    br_aes_ct_ctr_keys keys;
    br_aes_ct_ctr_init(&keys, key, 16);
    br_aes_ct_ctr_run(&keys, nonce, 1, text, sizeof text);
#elif defined CHACHA20
    br_chacha20_ct_run(key, nonce, 1, text, sizeof text);
#elif defined HMAC
    br_hmac_key_context keys;
    br_hmac_context mac;
    br_hmac_key_init(&keys, &br_sha256_vtable, key, sizeof key);
    br_hmac_init(&mac, &keys, 0);
    br_hmac_update(&mac, text, sizeof text);
    br_hmac_out(&mac, text);
#endif
    return 0;
}
