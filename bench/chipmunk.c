// A chain of pin joints that hangs from the world, solved by Chipmunk (its pivot joint): nanoseconds for one iteration a joint.
// It is the time of a step with many iterations less that of a step with few, so that what a step does once is not in it.
#include <chipmunk/chipmunk.h>
#include <stdio.h>
#include <time.h>

static double now(void) {
    struct timespec t;
    clock_gettime(CLOCK_MONOTONIC, &t);
    return t.tv_sec * 1e9 + t.tv_nsec;
}

// The shortest of some steps, in nanoseconds.
static double step(int joints, int iterations) {
    cpSpace *space = cpSpaceNew();
    cpSpaceSetGravity(space, cpv(0, -10));
    cpSpaceSetIterations(space, iterations);
    cpBody *before = cpSpaceGetStaticBody(space);
    for (int i = 0; i < joints; i++) {
        cpBody *link = cpSpaceAddBody(space, cpBodyNew(1, 0.5));
        cpBodySetPosition(link, cpv(i + 0.5, 0));
        cpSpaceAddConstraint(space, cpPivotJointNew(before, link, cpv(i, 0)));
        before = link;
    }
    double best = 1e18;
    for (int i = 0; i < 300; i++) {
        double start = now();
        cpSpaceStep(space, 1.0 / 60.0);
        double took = now() - start;
        best = took < best ? took : best;
    }
    return best;
}

int main(void) {
    int sizes[] = {4, 16, 128};
    for (int i = 0; i < 3; i++) {
        double each = (step(sizes[i], 104) - step(sizes[i], 4)) / 100 / sizes[i];
        printf("%6d        Chipmunk %s                            %10.1f\n", sizes[i], cpVersionString, each);
    }
    return 0;
}
