// A chain of pin joints that hangs from the world, solved by Box2D: nanoseconds for one velocity iteration a joint. It is the
// time of a step with many velocity iterations less that of a step with few, so that what a step does once is not in it.
#include <box2d/box2d.h>
#include <chrono>
#include <cstdio>
#include <initializer_list>

// The shortest of some steps, in nanoseconds.
static double step(int joints, int iterations) {
    b2World world(b2Vec2(0.0f, -10.0f));
    world.SetAllowSleeping(false);
    b2BodyDef fixed;
    b2Body *before = world.CreateBody(&fixed);
    for (int i = 0; i < joints; i++) {
        b2BodyDef def;
        def.type = b2_dynamicBody;
        def.position.Set(i + 0.5f, 0.0f);
        b2Body *link = world.CreateBody(&def);
        b2PolygonShape shape;
        shape.SetAsBox(0.5f, 0.0625f);
        b2FixtureDef fixture;
        fixture.shape = &shape;
        fixture.density = 8.0f;
        fixture.filter.maskBits = 0;
        link->CreateFixture(&fixture);
        b2RevoluteJointDef pin;
        pin.Initialize(before, link, b2Vec2((float)i, 0.0f));
        world.CreateJoint(&pin);
        before = link;
    }
    double best = 1e18;
    for (int i = 0; i < 300; i++) {
        auto start = std::chrono::steady_clock::now();
        world.Step(1.0f / 60.0f, iterations, 0);
        double took = std::chrono::duration<double, std::nano>(std::chrono::steady_clock::now() - start).count();
        best = took < best ? took : best;
    }
    return best;
}

int main() {
    for (int joints : {4, 16, 128}) {
        double each = (step(joints, 104) - step(joints, 4)) / 100 / joints;
        printf("%6d        Box2D %d.%d.%d                               %10.1f\n", joints, b2_version.major, b2_version.minor, b2_version.revision, each);
    }
}
