/* The smallest program that plans: two lines, tips {0} and {1,2}, in a rack of 3. */
#include <stdio.h>

#include "tipshare.h"

int main(void)
{
    static const uint8_t file[] = {'T', 'I', 'P', 0, 1, 3, 0, 2, 0, 0, 0, 0, 0, 0, 0, 1, 0, 0, 0, 0, 0, 0, 0, 6};
    uint8_t plan[TIPSHARE_MOST_LINES];
    uint64_t answer[TIPSHARE_ANSWER_PLACES];
    uint32_t number = tipshare_quick(file, sizeof file, TIPSHARE_NO_TIP, plan, sizeof plan, answer, TIPSHARE_ANSWER_PLACES);
    if (number != TIPSHARE_ACCEPTED) {
        fprintf(stderr, "refused %u: %s\n", (unsigned)number, tipshare_words(number));
        return 1;
    }
    printf("line 0 on tip %d, line 1 on tip %d, %d pairs\n", plan[0], plan[1], (int)answer[1]);
    return 0;
}
