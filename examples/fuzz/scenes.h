// Makes scenes from a fuzzer's bytes. The schedule is drawn event by event, and each client event gets a message that
// fits what is there by then, so most messages are accepted: listed resources are uploaded, ids rise, begin-frames are
// pending where one is awaited, each frame is valid, and its damage covers what it changes.
#pragma once
#include <algorithm>
#include <cstdint>
#include <cstring>
#include <vector>

using Bytes = std::vector<uint8_t>;

// Takes choices from the fuzzer's bytes, one after the other; once these are used up each choice is the least.
class Choices {
  public:
    Choices(const uint8_t* data, size_t size) : at_(data), end_(data + size) {}

    uint32_t pick(uint32_t least, uint32_t most) {
        uint32_t span = most - least, number = 0;
        for (uint32_t left = span; left > 0 && at_ != end_; left >>= 8) number = number << 8 | *at_++;
        return least + number % (span + 1);
    }

    bool once_in(uint32_t times) { return pick(1, times) == times; }
    bool is_done() const { return at_ == end_; }

  private:
    const uint8_t* at_;
    const uint8_t* end_;
};

// What both implementations are given.
struct Scene {
    uint32_t w, h;
    Bytes schedule;
    Bytes files;                  // the clients' files, one after the other
    std::vector<size_t> lengths;  // the length of each
    bool is_honest;               // each client's damage covers what it changes
};

struct Rect {
    int32_t x, y, w, h;

    Rect bound(const Rect& b) const {
        if (w == 0 || b.w == 0) return w == 0 ? b : *this;
        int32_t left = std::min(x, b.x), top = std::min(y, b.y);
        return {left, top, std::max(x + w, b.x + b.w) - left, std::max(y + h, b.y + b.h) - top};
    }

    Rect within(const Rect& b) const {
        int32_t left = std::max(x, b.x), top = std::max(y, b.y);
        int32_t wide = std::min(x + w, b.x + b.w) - left, high = std::min(y + h, b.y + b.h) - top;
        return wide > 0 && high > 0 ? Rect{left, top, wide, high} : Rect{0, 0, 0, 0};
    }
};

struct Local {
    uint32_t parent, child;
};

struct Quad {
    int32_t x, y;  // the offset
    Rect area, visible, clip;
    bool clips;
    uint32_t opacity, blend, material;
    uint8_t colour[4];
    uint32_t number, tx, ty;  // of a tile the resource; of a pass quad the pass
    uint32_t client;          // of a surface quad
    bool starts;
    Local start, end;

    Rect covered() const { return {x + visible.x, y + visible.y, visible.w, visible.h}; }
};

// Makes the scene, with all that is known of the machine while it is made.
class Maker {
  public:
    // With flags all is opaque and has its client's colour, so that a pixel says which client is seen there.
    Maker(Choices& choices, bool flags) : choices_(choices), flags_(flags) {}

    Scene scene() {
        Scene made{pick(1, 16), pick(1, 16), {}, {}, {}, true};
        w_ = static_cast<int32_t>(made.w), h_ = static_cast<int32_t>(made.h);
        clients_.resize(pick(1, 3));
        for (uint32_t c = clients_.size(); c > 0; c--) {
            for (int i = 0; i < (c == 1 ? 5 : 2); i++) give(made, c);
        }
        for (uint32_t events = pick(4, 90); events > 0 && !choices_.is_done(); events--) event(made);
        for (uint8_t last : {0x12, 0x13, 0x11, 0x12}) made.schedule.push_back(last);
        for (uint32_t c = 1; c <= clients_.size(); c++) add_file(made, c);
        return made;
    }

  private:
    struct Client {
        Bytes out;
        uint32_t count = 0, opened = 0, begin = 0;
        bool pending = false, attached = false, closed = false;
        struct Block {
            uint32_t id, w, h;
        };
        std::vector<Block> blocks;
        Local local{0, 0};
        int32_t w = 0, h = 0;
        std::vector<std::vector<Quad>> passes;  // those of its last frame
    };

    uint32_t pick(uint32_t least, uint32_t most) { return choices_.pick(least, most); }
    bool once_in(uint32_t times) { return choices_.once_in(times); }

    void put(uint64_t number, int width) {
        for (int i = 0; i < width; i++) out_->push_back(static_cast<uint8_t>(number >> 8 * i));
    }

    void sink(uint32_t client) { put(client, 4), put(1, 4); }
    void local(const Local& id) { put(id.parent, 4), put(id.child, 4), put(1, 8), put(0, 8); }
    void surface(uint32_t client, const Local& id) { sink(client), local(id); }
    void rectangle(const Rect& r) { put(r.x, 4), put(r.y, 4), put(r.w, 4), put(r.h, 4); }
    void flag(uint32_t client, uint8_t* to) { to[0] = to[1] = to[2] = static_cast<uint8_t>(client * 60), to[3] = 255; }

    void event(Scene& made) {
        uint32_t kind = pick(0, 15);
        if (kind < 10) {
            give(made, kind % clients_.size() + 1);
        } else if (kind < 12) {
            begin(made);
        } else if (kind < 15) {
            if (flying_ && pick(0, 7)) made.schedule.push_back(0x13), flying_ = false;
            made.schedule.push_back(0x12), flying_ = true;
        } else {
            made.schedule.push_back(once_in(12) ? 0x14 : 0x13), flying_ = false;
        }
    }

    void begin(Scene& made) {
        made.schedule.push_back(0x11), tick_++;
        clients_[0].attached = true;
        for (Client& client : clients_) client.pending |= client.attached && !client.closed;
    }

    // A client's next event, and the message for it.
    void give(Scene& made, uint32_t number) {
        Client& client = clients_[number - 1];
        if (client.closed && pick(0, 15)) return begin(made);
        made.schedule.push_back(static_cast<uint8_t>(number));
        out_ = &client.out, client.count++;
        if (client.opened < (number == 1 ? 5 : 2)) return opening(number, client.opened++);
        switch (pick(0, 15)) {
            case 0: upload(number); break;
            case 1: put(4, 1); break;
            case 2: put(3, 1), put(client.begin = tick_, 4); break;
            case 3: put(5, 1), local(client.local.parent && number == 1 ? client.local : Local{1, 1}); break;
            case 4: once_in(4) ? close(number) : submit(number); break;
            case 5: relation(number, pick(1, 3)); break;
            case 6: case 7:
                if (client.pending) put(7, 1), client.pending = false, client.begin = tick_;
                else submit(number);
                break;
            default: submit(number);
        }
    }

    void close(uint32_t number) { put(8, 1), clients_[number - 1].closed = true; }

    void opening(uint32_t number, uint32_t step) {
        if (step == 0) upload(number);
        else if (step == 1) submit(number);
        else if (step == 2) put(5, 1), local(clients_[0].local);
        else relation(1, std::min<uint32_t>(step - 1, clients_.size()));
    }

    void relation(uint32_t parent, uint32_t child) {
        put(6, 1), sink(parent), sink(child);
        bool joins = parent < child && child <= clients_.size() && (parent == 1 || clients_[parent - 1].attached);
        if (joins) clients_[child - 1].attached = true;
    }

    // A new resource, or an old one anew, which is refused while it is lent.
    void upload(uint32_t number) {
        auto& blocks = clients_[number - 1].blocks;
        uint32_t id = static_cast<uint32_t>(blocks.size() + 1);
        if (blocks.size() > 3 || (blocks.size() > 0 && once_in(8))) id = pick(1, blocks.size());
        if (id > blocks.size()) blocks.push_back({id, pick(1, 8), pick(1, 8)});
        Client::Block block = blocks[id - 1];
        uint8_t a = static_cast<uint8_t>(once_in(3) ? pick(0, 255) : 255), colour[4];
        put(1, 1), put(id, 4), put(block.w, 2), put(block.h, 2);
        flag(number, colour);
        uint32_t seed = pick(0, 255);
        for (uint32_t i = 0; i < block.w * block.h; i++) {
            for (int k = 0; k < 3; k++) put(flags_ ? colour[k] : (seed * 7 + i * (13 + 20 * k)) % (a + 1u), 1);
            put(flags_ ? 255 : a, 1);
        }
    }

    void submit(uint32_t number) {
        Client& client = clients_[number - 1];
        bool raises = client.local.parent == 0 || once_in(6);
        if (raises) {
            (client.local.parent == 0 || once_in(2)) ? client.local.parent++ : client.local.child++;
            client.local.child = std::max(client.local.child, 1u);
            client.w = number == 1 && pick(0, 7) ? w_ : static_cast<int32_t>(pick(1, 12));
            client.h = number == 1 && pick(0, 7) ? h_ : static_cast<int32_t>(pick(1, 12));
        }
        Rect whole{0, 0, client.w, client.h}, damage = whole;
        if (raises || client.passes.empty() || once_in(4)) {
            client.passes.assign(once_in(3) ? 2 : 1, {});
            for (size_t k = 0; k < client.passes.size(); k++) {
                for (uint32_t quads = pick(1, 4); quads > 0; quads--) client.passes[k].push_back(quad(number, k));
            }
            embed(number);
        } else {
            damage = change(number).within(whole);
        }
        put(2, 1), local(client.local);
        frame(number, client, damage);
    }

    // The first client shows the others.
    void embed(uint32_t number) {
        for (uint32_t c = 2; number == 1 && c <= clients_.size(); c++) {
            Quad q = quad(number, 0);
            surface_quad(q, c);
            clients_[0].passes.back().insert(clients_[0].passes.back().begin(), q);
        }
    }

    // Changes a quad of the root pass; what is covered before and after.
    Rect change(uint32_t number) {
        Client& client = clients_[number - 1];
        auto& quads = client.passes.back();
        size_t place = pick(0, quads.size() - 1);
        Rect before = quads[place].covered();
        switch (pick(0, 3)) {
            case 0: quads[place] = quad(number, client.passes.size() - 1); break;
            case 1: if (!flags_) quads[place].opacity = pick(0, 255); else pick(0, 255); break;
            default: quads[place].x = pick(0, 9), quads[place].y = pick(0, 9);
        }
        return before.bound(quads[place].covered());
    }

    Quad quad(uint32_t number, size_t pass) {
        Quad q{};
        const auto& blocks = clients_[number - 1].blocks;
        q.x = pick(0, 9), q.y = pick(0, 9);
        q.area = q.visible = {0, 0, static_cast<int32_t>(pick(1, 12)), static_cast<int32_t>(pick(1, 12))};
        q.opacity = once_in(3) ? pick(0, 255) : 255, q.blend = once_in(12) ? pick(1, 2) : 0;
        if (flags_) q.opacity = 255, q.blend = 0;
        uint8_t a = static_cast<uint8_t>(once_in(3) ? pick(0, 255) : 255);
        for (int i = 0; i < 3; i++) q.colour[i] = static_cast<uint8_t>(pick(0, a));
        q.colour[3] = a;
        if (flags_) flag(number, q.colour);
        uint32_t kind = pick(0, 7);
        q.material = kind < 3 ? 1 : kind < 5 ? (blocks.empty() ? 1 : 2) : kind < 7 ? 3 : pass > 0 ? 4 : 1;
        if (q.material == 2) {
            const auto& block = blocks[pick(0, blocks.size() - 1)];
            q.number = block.id, q.tx = pick(0, block.w - 1), q.ty = pick(0, block.h - 1);
            q.area = q.visible = {0, 0, static_cast<int32_t>(pick(1, block.w - q.tx)), static_cast<int32_t>(pick(1, block.h - q.ty))};
        }
        if (q.material == 3) surface_quad(q, pick(1, clients_.size()));
        if (q.material == 4) q.number = 1;
        if (once_in(6)) q.visible.w = pick(1, q.area.w), q.visible.h = pick(1, q.area.h);
        q.clips = once_in(6);
        if (q.clips) q.clip = {static_cast<int32_t>(pick(0, 4)), static_cast<int32_t>(pick(0, 4)), static_cast<int32_t>(pick(1, 8)), static_cast<int32_t>(pick(1, 8))};
        return q;
    }

    void surface_quad(Quad& q, uint32_t client) {
        q.material = 3, q.client = client;
        q.end = clients_[client - 1].local;
        if (q.end.parent == 0) q.end = {1, 1};
        if (once_in(3)) q.end.child++;  // one that comes later
        q.starts = once_in(2), q.start = {1, 1};
    }

    void frame(uint32_t number, Client& client, const Rect& damage) {
        put(pick(0, 9), 4), put(client.begin, 4), put(once_in(3) ? pick(0, 3) : 255, 1);
        bool waits = once_in(5);
        put(waits, 1);
        if (waits) {
            uint32_t other = pick(1, clients_.size());
            Local wanted = clients_[other - 1].local;
            if (wanted.parent == 0) wanted = {1, 1};
            if (once_in(2)) wanted.child++;
            surface(other, wanted);
        }
        std::vector<const Quad*> spans;
        std::vector<uint32_t> listed;
        for (const auto& quads : client.passes) {
            for (const Quad& q : quads) {
                if (q.material == 3) spans.push_back(&q);
                if (q.material == 2 && std::count(listed.begin(), listed.end(), q.number) == 0) listed.push_back(q.number);
            }
        }
        put(spans.size(), 1);
        for (const Quad* q : spans) range(*q);
        put(listed.size(), 1);
        for (uint32_t id : listed) put(id, 4), put(client.blocks[id - 1].w, 2), put(client.blocks[id - 1].h, 2);
        put(client.passes.size(), 1);
        for (size_t k = 0; k < client.passes.size(); k++) {
            bool is_root = k + 1 == client.passes.size();
            Rect output = is_root ? Rect{0, 0, client.w, client.h} : Rect{0, 0, 10, 10};
            put(k + 1, 4), rectangle(output), rectangle(is_root ? damage : output), put(client.passes[k].size(), 2);
            for (const Quad& q : client.passes[k]) write(number, q);
        }
    }

    void range(const Quad& q) {
        put(q.starts, 1);
        if (q.starts) surface(q.client, q.start);
        surface(q.client, q.end);
    }

    void write(uint32_t number, const Quad& q) {
        put(q.x, 4), put(q.y, 4), rectangle(q.area), rectangle(q.visible), put(q.clips, 1);
        if (q.clips) rectangle(q.clip);
        put(q.opacity, 1), put(q.blend, 1), put(q.material, 1);
        uint8_t colour[4];
        std::memcpy(colour, q.colour, 4);
        if (flags_) flag(number, colour);
        if (q.material == 2) put(q.number, 4), put(q.tx, 2), put(q.ty, 2);
        if (q.material == 3) range(q);
        if (q.material == 4) put(q.number, 4);
        if (q.material == 1 || q.material == 3) for (uint8_t channel : colour) put(channel, 1);
    }

    void add_file(Scene& made, uint32_t number) {
        Bytes body = clients_[number - 1].out, head = {'V', 'I', 'Z', 'C', 2, 0};
        out_ = &head, sink(number), put(clients_[number - 1].count, 4);
        head.insert(head.end(), body.begin(), body.end());
        made.lengths.push_back(head.size());
        made.files.insert(made.files.end(), head.begin(), head.end());
    }

    Choices& choices_;
    bool flags_, flying_ = false;
    std::vector<Client> clients_;
    Bytes* out_ = nullptr;
    uint32_t tick_ = 0;
    int32_t w_ = 1, h_ = 1;
};

// A whole scene as an input of the corpus: `VIZS`, the sides minus 1 and the number of events (16 bits each), the events,
// the files. One that draws much is left out.
inline bool read_whole(const uint8_t* data, size_t size, Scene& made) {
    static const uint8_t magic[] = {'V', 'I', 'Z', 'C'};
    auto number = [&](size_t at) { return data[at] + 256u * data[at + 1]; };
    if (size < 10 || std::memcmp(data, "VIZS", 4) != 0) return false;
    made = {number(4) + 1, number(6) + 1, {}, {}, {}, false};
    size_t at = 10 + std::min<size_t>(number(8), size - 10);
    made.schedule.assign(data + 10, data + at);
    size_t draws = static_cast<size_t>(std::count(made.schedule.begin(), made.schedule.end(), 0x12));
    if (made.w > 2048 || made.h > 2048 || made.w * made.h * draws > (1u << 24)) return false;
    made.files.assign(data + at, data + size);
    auto next = made.files.begin();
    while (next != made.files.end()) {
        auto end = std::search(next + 1, made.files.end(), magic, magic + 4);
        made.lengths.push_back(static_cast<size_t>(end - next));
        next = end;
    }
    return made.lengths.size() >= 1 && made.lengths.size() <= 16 && !made.schedule.empty();
}
