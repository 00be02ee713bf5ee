/* Writes the G.721 codes of flite's voice cmu_us_kal, as `oracle codecs --codes FILE` reads them:
   for each period its packed bytes, after their number as two bytes, little-endian.

   Needs flite's library with that voice (Debian: flite1-dev).

       cc -o voice-codes tools/voice-codes.c -lflite_cmu_us_kal -lflite_usenglish -lflite_cmulex -lflite -lm
       ./voice-codes > kal.codes
*/
#include <flite/flite.h>
#include <stdio.h>

extern const cst_sts_list cmu_us_kal_sts;

/* Codes before a period's own, for the decoder to settle. */
#define LEAD_IN 8

int main(void) {
    const cst_sts_list *voice = &cmu_us_kal_sts;
    for (int i = 0; i < voice->num_sts; i++) {
        unsigned size = (voice->ressizes[i] + LEAD_IN + 1) / 2;
        putchar(size % 256);
        putchar(size / 256);
        fwrite(voice->residuals + voice->resoffs[i], 1, size, stdout);
    }
    return fflush(stdout) != 0 || ferror(stdout);
}
