/* Bullet: btAlignedAllocSetCustom, whose hooks have no context. A world of bodies falls, comes to rest, and is shot at. Bullet uses what
 * it gets unseen, so the hook throws where memory is refused. */
#include "harness.h"

#include <btBulletDynamicsCommon.h>
#include <cstdio>
#include <memory>
#include <new>
#include <utility>
#include <vector>

const char program_name[] = "Bullet";

const char *program_version() {
    static char text[16];
    std::snprintf(text, sizeof text, "%d.%02d", BT_BULLET_VERSION / 100, BT_BULLET_VERSION % 100);
    return text;
}

namespace {

constexpr int bodies = 300, steps = 240, shots = 40;

void *take(std::size_t n) {
    void *p = hook_malloc(n);
    if (p == nullptr) throw std::bad_alloc();
    return p;
}

/* Everything goes before what it refers to. */
struct world {
    btDefaultCollisionConfiguration configuration;
    btCollisionDispatcher dispatcher{&configuration};
    btDbvtBroadphase broadphase;
    btSequentialImpulseConstraintSolver solver;
    btDiscreteDynamicsWorld it{&dispatcher, &broadphase, &solver, &configuration};
    std::vector<std::unique_ptr<btCollisionShape>> shapes;
    std::vector<std::unique_ptr<btRigidBody>> all;

    ~world() {
        for (auto &body : all) it.removeRigidBody(body.get());
    }

    void add(std::unique_ptr<btCollisionShape> shape, float mass, const btVector3 &at) {
        btVector3 inertia(0, 0, 0);
        if (mass > 0) shape->calculateLocalInertia(mass, inertia);
        btRigidBody::btRigidBodyConstructionInfo info(mass, nullptr, shape.get(), inertia);
        info.m_startWorldTransform.setOrigin(at);
        shapes.push_back(std::move(shape));
        all.push_back(std::make_unique<btRigidBody>(info));
        it.addRigidBody(all.back().get());
    }
};

std::unique_ptr<btCollisionShape> shape_of(int k) {
    const btScalar size = 0.3f + static_cast<float>(k % 5) * 0.1f;
    if (k % 3 == 0) return std::make_unique<btBoxShape>(btVector3(size, size, 2 * size));
    if (k % 3 == 1) return std::make_unique<btSphereShape>(size);
    auto hull = std::make_unique<btConvexHullShape>();
    for (int corner = 0; corner < 12; corner++)
        hull->addPoint(
            btVector3(static_cast<float>(corner % 3) * size, static_cast<float>(corner % 4) * size, static_cast<float>(corner % 2) * size));
    return hull;
}

void tell(const world &w) {
    for (const auto &body : w.all) {
        const btVector3 &at = body->getWorldTransform().getOrigin();
        say("%.9g %.9g %.9g\n", static_cast<double>(at.x()), static_cast<double>(at.y()), static_cast<double>(at.z()));
    }
}

void shoot(const world &w, int k) {
    const btVector3 from(static_cast<float>(k % 8) - 4, 30, static_cast<float>(k / 8) - 2), to = from - btVector3(0, 60, 0);
    btCollisionWorld::AllHitsRayResultCallback hits(from, to);
    w.it.rayTest(from, to, hits);
    say("%d hits\n", hits.m_collisionObjects.size());
}

void work() {
    world w;
    w.it.setGravity(btVector3(0, -10, 0));
    w.add(std::make_unique<btBoxShape>(btVector3(50, 1, 50)), 0, btVector3(0, -1, 0));
    for (int k = 0; k < bodies; k++)
        w.add(shape_of(k), static_cast<float>(1 + k % 4),
              btVector3(static_cast<float>(k % 5) * 1.1f - 2, 2 + static_cast<float>(k / 5) * 0.9f, static_cast<float>(k % 7) * 0.7f - 2));
    for (int k = 0; k < steps; k++) {
        w.it.stepSimulation(1.0f / 60, 0);
        if (k % 60 == 59) tell(w);
    }
    for (int k = 0; k < shots; k++) shoot(w, k);
}

} // namespace

bool program_work(const char *) {
    btAlignedAllocSetCustom(take, hook_free);
    try {
        work();
    } catch (const std::bad_alloc &) {
        return false;
    }
    return true;
}
