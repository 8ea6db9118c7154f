/* What a caller is answered, by a function that is compiled several times: ANSWERS is its name. */
#include <nbft.h>

/* How many fields, objects and records were read by name, how many facts of these are wrong, the table's length. */
struct answers {
    unsigned fields, objects, records, wrong, length;
};

#ifdef __cplusplus
extern "C" {
#endif
void NBFT_CALL answers_as_c89(struct answers *answers);
void NBFT_CALL answers_as_cxx(struct answers *answers);
void NBFT_CALL answers_by_ms(struct answers *answers);
#ifdef __cplusplus
}
#endif
