/* The figures of a matrix by SuiteSparse: orders by AMD, exact counts by CSparse. The argument is a Matrix Market file as files.mjs writes
 * it; the output is JSON. It shares no line with what it is compared with. */
#include <stdio.h>
#include <stdlib.h>

#include <suitesparse/amd.h>
#include <suitesparse/cs.h>

static void stop(const char *what)
{
    fprintf(stderr, "figures: %s\n", what);
    exit(1);
}

/* The pattern of A + A' without duplicates, with values that are not read. */
static cs_di *read_pattern(const char *name)
{
    FILE *in = fopen(name, "r");
    char line[256];
    int n, m, entries, i, j, k;
    cs_di *triplets, *a, *transpose, *sum;
    if (in == NULL || fgets(line, sizeof line, in) == NULL || fscanf(in, "%d %d %d", &n, &m, &entries) != 3)
        stop("no matrix");
    triplets = cs_di_spalloc(n, n, entries, 1, 1);
    for (k = 0; k < entries; k++) {
        if (fscanf(in, "%d %d", &i, &j) != 2 || !cs_di_entry(triplets, i - 1, j - 1, 1.0))
            stop("no entry");
    }
    fclose(in);
    a = cs_di_compress(triplets);
    cs_di_dupl(a);
    transpose = cs_di_transpose(a, 1);
    sum = cs_di_add(a, transpose, 1, 1);
    cs_di_spfree(triplets);
    cs_di_spfree(a);
    /* Sorted columns, by two transposes. */
    transpose = cs_di_transpose(sum, 1);
    cs_di_spfree(sum);
    return cs_di_transpose(transpose, 1);
}

/* Counts the factor in the order p. */
static void count(const char *name, const cs_di *a, const int *p)
{
    int *inverse = cs_di_pinv(p, a->n), *parent, *post, *counts, k, largest = 0;
    cs_di *permuted = cs_di_symperm(a, inverse, 0);
    double below = 0, ldl = 0, lu = 0;
    parent = cs_di_etree(permuted, 0);
    post = cs_di_post(parent, a->n);
    counts = cs_di_counts(permuted, parent, post, 0);
    for (k = 0; k < a->n; k++) {
        double c = counts[k] - 1;
        below += c;
        ldl += c * (c + 1) / 2;
        lu += c * c;
        if (counts[k] > largest)
            largest = counts[k];
    }
    printf("\"%s\": {\"lnz\": %.0f, \"nMultSubsLdl\": %.0f, \"nMultSubsLu\": %.0f, \"dMax\": %d}", name, below, ldl, lu, largest);
    cs_di_free(inverse), cs_di_free(parent), cs_di_free(post), cs_di_free(counts);
    cs_di_spfree(permuted);
}

int main(int argc, char **argv)
{
    cs_di *a = read_pattern(argc == 2 ? argv[1] : "");
    int n = a->n, k, *p = malloc((size_t)(n + 1) * sizeof *p);
    double control[AMD_CONTROL], info[AMD_INFO];
    unsigned long long sum = 1469598103934665603ULL;
    printf("{");
    for (k = 0; k < n; k++)
        p[k] = k;
    count("natural", a, p);
    printf(", ");
    for (k = 0; k < n; k++)
        p[k] = n - 1 - k;
    count("reversed", a, p);
    printf(", ");
    amd_defaults(control);
    if (amd_order(n, a->p, a->i, p, control, info) < 0)
        stop("no order");
    count("amd", a, p);
    for (k = 0; k < n; k++)
        sum = (sum ^ (unsigned)p[k]) * 1099511628211ULL;
    printf(", \"bound\": {\"lnz\": %.0f, \"nMultSubsLdl\": %.0f, \"nMultSubsLu\": %.0f, \"dMax\": %.0f}, \"pairs\": %.0f, \"n\": %d, \"sum\": \"%llu\"}\n",
           info[AMD_LNZ], info[AMD_NMULTSUBS_LDL], info[AMD_NMULTSUBS_LU], info[AMD_DMAX], info[AMD_NZ_A_PLUS_AT], n, sum);
    return 0;
}
