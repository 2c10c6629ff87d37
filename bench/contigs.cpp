// A plain program of one thread that does what `bcl contigs K` does, over a std::unordered_map. bench/contigs times it.

#include <algorithm>
#include <cstdint>
#include <cstdio>
#include <cstdlib>
#include <string>
#include <string_view>
#include <unordered_map>
#include <vector>

const size_t MAX_BYTES = 1 << 26, MAX_LINES = 1 << 22, MAX_TEXT = 1 << 26;

struct Node {
    char back, forward;
    size_t walk;  // the number of the last walk that came here, from 1
};

using Nodes = std::unordered_map<uint64_t, Node>;

[[noreturn]] void refuse(const std::string &reason) {
    fprintf(stderr, "%s\n", reason.c_str());
    exit(1);
}

[[noreturn]] void refuse_line(size_t place, const char *reason) {
    refuse("line " + std::to_string(place + 1) + ": " + reason);
}

bool is_letter(char byte) {
    return byte == 'A' || byte == 'C' || byte == 'G' || byte == 'T';
}

uint64_t code(char letter) {
    return letter == 'A' ? 0 : letter == 'C' ? 1 : letter == 'G' ? 2 : 3;
}

uint64_t pack(std::string_view letters) {
    uint64_t key = 0;
    for (char letter : letters) key = key << 2 | code(letter);
    return key;
}

std::string read_all() {
    std::string text;
    char piece[1 << 16];
    while (size_t got = fread(piece, 1, sizeof piece, stdin)) {
        text.append(piece, got);
        if (text.size() > MAX_BYTES) refuse("too large: more than 67108864 bytes");
    }
    return text;
}

std::vector<std::string_view> lines_of(std::string_view text) {
    std::vector<std::string_view> lines;
    while (!text.empty()) {
        std::string_view line = text.substr(0, text.find('\n'));
        text.remove_prefix(std::min(line.size() + 1, text.size()));
        if (!line.empty() && line.back() == '\r') line.remove_suffix(1);
        lines.push_back(line);
        if (lines.size() > MAX_LINES) refuse("too large: more than 4194304 lines");
    }
    return lines;
}

const char *fault_of(std::string_view line, size_t k) {
    if (line.size() != k + 3) return "bad length";
    if (!std::all_of(line.begin(), line.begin() + k, is_letter)) return "bad letter";
    if (line[k] != '\t') return "no tab";
    for (char extension : line.substr(k + 1))
        if (!is_letter(extension) && extension != 'F') return "bad extension";
    return nullptr;
}

Nodes nodes_of(const std::vector<std::string_view> &lines, size_t k) {
    Nodes nodes;
    nodes.reserve(lines.size());
    for (size_t place = 0; place < lines.size(); place++) {
        std::string_view line = lines[place];
        if (line.empty()) continue;
        Node node{line[k + 1], line[k + 2], 0};
        const Node &first = nodes.try_emplace(pack(line.substr(0, k)), node).first->second;
        if (first.back != node.back || first.forward != node.forward) refuse_line(place, "conflict");
    }
    return nodes;
}

// The letters of a key, and then the forward letter of each node of its walk but the last.
std::string contig(Nodes &nodes, uint64_t key, size_t k, size_t walk) {
    std::string text(k, 'A');
    for (size_t at = 0; at < k; at++) text[at] = "ACGT"[key >> 2 * (k - 1 - at) & 3];
    Node *node = &nodes.at(key);
    for (;;) {
        node->walk = walk;
        if (node->forward == 'F') return text;
        key = (key << 2 | code(node->forward)) & ((uint64_t{1} << 2 * k) - 1);
        auto next = nodes.find(key);
        if (next == nodes.end() || next->second.walk == walk) return text;
        text += node->forward;
        node = &next->second;
    }
}

std::vector<std::string> contigs_of(Nodes &nodes, size_t k) {
    std::vector<std::string> contigs;
    size_t bytes = 0;
    for (const auto &[key, node] : nodes) {
        if (node.back != 'F') continue;
        contigs.push_back(contig(nodes, key, k, contigs.size() + 1));
        bytes += contigs.back().size() + 1;
        if (bytes > MAX_TEXT) refuse("too large: more than 67108864 bytes of text");
    }
    std::sort(contigs.begin(), contigs.end());
    return contigs;
}

int main(int count, char **words) {
    size_t k = count == 2 ? strtoul(words[1], nullptr, 10) : 0;
    if (k < 1 || k > 31) return 2;
    std::string text = read_all();
    std::vector<std::string_view> lines = lines_of(text);
    for (size_t place = 0; place < lines.size(); place++) {
        const char *fault = lines[place].empty() ? nullptr : fault_of(lines[place], k);
        if (fault) refuse_line(place, fault);
    }
    Nodes nodes = nodes_of(lines, k);
    for (const std::string &it : contigs_of(nodes, k)) {
        fwrite(it.data(), 1, it.size(), stdout);
        putchar('\n');
    }
    return fflush(stdout) == 0 ? 0 : 4;
}
