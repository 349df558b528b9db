// A target of libFuzzer: it makes a scene from bytes, has viz_step compose it, and asks a second implementation.
//
// Hand your own compositor to compare_with as a function of this type. The one here is viz_check, which plays the log
// on the plain machine and paints each frame with the plain painter; it must say yes.
#include <cstdio>
#include <cstdlib>
#include <string>

#include "scenes.h"
#include "viz.h"

namespace {

// What viz_step leaves, and the whole pictures of a session over the same scene.
struct Outcome {
    Bytes frames, log, pictures;
};

// Whether another implementation leaves the same.
using Implementation = bool (*)(const Scene&, const Outcome&);

struct Counts {
    size_t scenes, frames, messages, refused, hits;
} counts;

const uint8_t none = 0;
const uint8_t* at(const Bytes& bytes) { return bytes.empty() ? &none : bytes.data(); }

[[noreturn]] void give_up(const char* what, uint32_t answer) {
    std::fprintf(stderr, "%s: answer %u\n", what, answer);
    std::abort();
}

// Where VIZ_SCENE names a folder that is there, the scene is written into it, to be looked at.
void keep(const char* name, const uint8_t* data, size_t size) {
    const char* folder = std::getenv("VIZ_SCENE");
    FILE* file = folder ? std::fopen((std::string(folder) + "/" + name).c_str(), "wb") : nullptr;
    if (file == nullptr) return;
    std::fwrite(data, 1, size, file);
    std::fclose(file);
}

void keep(const Scene& scene) {
    if (std::getenv("VIZ_SCENE") == nullptr) return;
    std::string size = std::to_string(scene.w) + "x" + std::to_string(scene.h);
    keep("size", reinterpret_cast<const uint8_t*>(size.data()), size.size());
    keep("schedule", at(scene.schedule), scene.schedule.size());
    size_t start = 0, number = 0;
    for (size_t length : scene.lengths) {
        keep(("c" + std::to_string(++number) + ".viz").c_str(), scene.files.data() + start, length);
        start += length;
    }
}

// False if the scene is refused, as one of the corpus may be.
bool compose(const Scene& scene, Outcome& made) {
    made.frames.resize(1 << 18), made.log.resize(1 << 18);
    viz_cause cause;
    size_t frames = 0, log = 0;
    auto step = [&] {
        return viz_step(scene.w, scene.h, scene.schedule.data(), scene.schedule.size(), scene.files.data(), scene.files.size(),
                        scene.lengths.data(), scene.lengths.size(), made.frames.data(), made.frames.size(), &frames,
                        made.log.data(), made.log.size(), &log, &cause);
    };
    uint32_t answer = step();
    if (answer == VIZ_ROOM) made.frames.resize(frames + 1), made.log.resize(log), answer = step();
    if (answer == VIZ_REFUSED && !scene.is_honest) return false;
    if (answer != VIZ_DONE) give_up("viz_step", answer);
    made.frames.resize(frames), made.log.resize(log);
    return true;
}

// The same event by event: the entries are the lines of the log, and the pictures are whole.
void by_session(const Scene& scene, Outcome& made) {
    viz_session session = {};
    viz_cause cause;
    uint32_t answer = viz_open(scene.w, scene.h, scene.files.data(), scene.files.size(), scene.lengths.data(),
                               scene.lengths.size(), &session, &cause);
    if (answer != VIZ_DONE) give_up("viz_open", answer);
    std::vector<uint8_t> line(1 << 16), picture(scene.w * scene.h * 4);
    size_t read = 0, length = 0;
    for (uint8_t event : scene.schedule) {
        if ((answer = viz_next(&session, event)) != VIZ_DONE) give_up("viz_next", answer);
        if ((answer = viz_entry(&session, line.data(), line.size(), &length)) != VIZ_DONE) give_up("viz_entry", answer);
        if (read + length > made.log.size() || std::memcmp(line.data(), made.log.data() + read, length) != 0) {
            give_up("a session has another entry than viz_step", answer);
        }
        read += length;
        std::string text(line.begin(), line.begin() + static_cast<long>(length));
        counts.messages += text[0] == 'c';
        counts.refused += text.find(" refused ") != std::string::npos;
        if (text.compare(0, 11, "draw drawn ") != 0) continue;
        viz_area damage;
        answer = viz_picture(&session, picture.data(), picture.size(), &length, &damage);
        if (answer != VIZ_DONE) give_up("viz_picture", answer);
        made.pictures.insert(made.pictures.end(), picture.begin(), picture.end());
    }
    viz_close(&session);
}

bool plain(const Scene& scene, const Outcome& made) {
    viz_cause cause;
    uint64_t entry = 0;
    uint32_t what = 0;
    uint32_t answer = viz_check(scene.w, scene.h, at(made.pictures), made.pictures.size(), made.log.data(), made.log.size(),
                                scene.files.data(), scene.files.size(), scene.lengths.data(), scene.lengths.size(),
                                &entry, &what, &cause);
    if (answer == VIZ_FAULT) std::fprintf(stderr, "fault %u at entry %llu\n", what, static_cast<unsigned long long>(entry));
    return answer == VIZ_DONE;
}

void compare_with(Implementation other, const Scene& scene, const Outcome& made) {
    if (!other(scene, made)) give_up("the other implementation leaves something else", 0);
    // What is painted in two buffers by damage alone is the whole picture, if each client is honest.
    if (scene.is_honest && made.frames != made.pictures) give_up("a frame of viz_step is not the whole picture", 0);
}

// In a scene of flags a pixel has the colour of the client that is seen there: that one is hit.
void compare_hits(const Scene& scene, const Outcome& made, Choices choices) {
    size_t size = scene.w * scene.h * 4;
    if (made.pictures.size() < size) return;
    const uint8_t* last = made.pictures.data() + made.pictures.size() - size;
    for (int i = 0; i < 6; i++) {
        uint32_t x = choices.pick(0, scene.w - 1), y = choices.pick(0, scene.h - 1);
        viz_target target;
        viz_cause cause;
        uint32_t answer = viz_hit(scene.w, scene.h, scene.schedule.data(), scene.schedule.size(), x, y, scene.files.data(),
                                  scene.files.size(), scene.lengths.data(), scene.lengths.size(), &target, &cause);
        uint32_t seen = last[(y * scene.w + x) * 4] / 60u, hit = answer == VIZ_DONE ? target.client_id : 0;
        if (answer != VIZ_DONE && answer != VIZ_NOTHING) give_up("viz_hit", answer);
        if (hit != seen) {
            std::fprintf(stderr, "at (%u, %u) client %u is seen and client %u is hit\n", x, y, seen, hit);
            give_up("what is hit is not what is seen", answer);
        }
        counts.hits++;
    }
}

// False if the scene is refused.
bool compare(const Scene& scene, Outcome& made) {
    keep(scene);
    if (!compose(scene, made)) return false;
    keep("log", at(made.log), made.log.size());
    keep("frames", at(made.frames), made.frames.size());
    by_session(scene, made);
    compare_with(plain, scene, made);
    counts.scenes++, counts.frames += made.frames.size() / (scene.w * scene.h * 4);
    return true;
}

}  // namespace

// What was tried so far, in a line.
extern "C" void print_counts() {
    std::fprintf(stderr, "%zu scenes, %zu frames drawn, %zu messages of which %zu were refused, %zu hits: all the same\n",
                 counts.scenes, counts.frames, counts.messages, counts.refused, counts.hits);
}

extern "C" int LLVMFuzzerInitialize(int*, char***) {
    std::atexit(print_counts);
    return 0;
}

extern "C" int LLVMFuzzerTestOneInput(const uint8_t* data, size_t size) {
    Outcome made;
    Scene scene;
    if (read_whole(data, size, scene) && compare(scene, made)) return 0;
    // What is no whole scene, also one that the fuzzer broke, is taken for choices.
    Choices choices(data, size);
    bool flags = choices.once_in(3);
    made = {}, scene = Maker(choices, flags).scene();
    compare(scene, made);
    if (flags) compare_hits(scene, made, Choices(data, size));
    return 0;
}

size_t frames_compared() { return counts.frames; }
