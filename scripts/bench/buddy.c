/* The works of hv_cond_bench in BuDDy, an ordinary library of decision diagrams, for `conditions`:
   prints how many branches are reached from the condition that a work builds. */
#include <bdd.h>
#include <stdio.h>
#include <stdlib.h>
#include <string.h>

/* One more reference on the new condition, and one less on the old. */
static BDD instead(BDD old, BDD new) {
    bdd_addref(new);
    bdd_delref(old);
    return new;
}

static BDD either(int i, int j) { return bdd_apply(bdd_ithvar(i), bdd_ithvar(j), bddop_or); }

static BDD implication(int i, int j) { return bdd_apply(bdd_nithvar(i), bdd_ithvar(j), bddop_or); }

/* Joined from the last pair on, which is the fastest way here. */
static BDD pairs(int n) {
    BDD all = bddtrue;
    for (int i = n - 1; i >= 0; i--)
        all = instead(all, bdd_apply(either(2 * i, 2 * i + 1), all, bddop_and));
    return all;
}

/* Joined from the last link on, which is the fastest way here. */
static BDD chain(int n) {
    BDD all = bddtrue;
    for (int i = n - 1; i >= 0; i--)
        all = instead(all, bdd_apply(implication(i, i + 1), all, bddop_and));
    return all;
}

static BDD chain_by_and(int n) {
    BDD all = bddtrue;
    for (int i = 0; i < n; i++)
        all = instead(all, bdd_apply(all, implication(i, i + 1), bddop_and));
    return all;
}

static int attacks(int n, int i, int j) {
    int rows = abs(i / n - j / n), columns = abs(i % n - j % n);
    return rows == 0 || columns == 0 || rows == columns;
}

static BDD rows(int n) {
    BDD all = bddtrue;
    for (int row = 0; row < n; row++) {
        BDD any = bddfalse;
        for (int column = 0; column < n; column++)
            any = instead(any, bdd_apply(any, bdd_ithvar(row * n + column), bddop_or));
        all = instead(all, bdd_apply(all, any, bddop_and));
        bdd_delref(any);
    }
    return all;
}

static BDD queens(int n) {
    BDD all = bddtrue;
    for (int i = 0; i < n * n; i++) {
        BDD none = bddtrue;
        for (int j = i + 1; j < n * n; j++)
            if (attacks(n, i, j)) {
                BDD both = bdd_addref(bdd_apply(bdd_ithvar(i), bdd_ithvar(j), bddop_and));
                BDD apart = bdd_addref(bdd_not(both));
                none = instead(none, bdd_apply(none, apart, bddop_and));
                bdd_delref(both);
                bdd_delref(apart);
            }
        all = instead(all, bdd_apply(all, none, bddop_and));
        bdd_delref(none);
    }
    BDD filled = rows(n);
    return bdd_addref(bdd_apply(filled, all, bddop_and));
}

static BDD same(int n) {
    BDD all = pairs(n), half = pairs(n / 2), both = bddtrue;
    for (int i = 0; i < 1000000; i++)
        both = instead(both, bdd_apply(all, half, bddop_and));
    return both;
}

int main(int count, char **words) {
    if (count != 3) return 2;
    int n = atoi(words[2]), is_queens = strcmp(words[1], "queens") == 0;
    int is_chain = strncmp(words[1], "chain", 5) == 0;
    bdd_init(100000, 10000);
    bdd_gbc_hook(NULL);
    bdd_resize_hook(NULL);
    bdd_setvarnum(is_queens ? n * n : is_chain ? n + 1 : 2 * n);
    BDD built = is_queens                               ? queens(n)
                : strcmp(words[1], "chain") == 0        ? chain(n)
                : strcmp(words[1], "chain-by-and") == 0 ? chain_by_and(n)
                : strcmp(words[1], "same") == 0         ? same(n)
                                                        : pairs(n);
    printf("%s %d: %d nodes\n", words[1], n, bdd_nodecount(built));
    return 0;
}
