#include "plot.h"

#include <algorithm>
#include <cmath>
#include <fstream>

namespace {

constexpr double width = 420, height = 380, left = 70, top = 40, inner_width = 230, inner_height = 280;
const char *const colours[] = {"#c0392b", "#2471a3", "#1e8449", "#b9770e", "#6c3483", "#566573"};

struct Frame {
    double x0, low, high, first, last;

    double x(double size) const { return x0 + left + inner_width * std::log(size / first) / std::log(last / first); }
    double y(double time) const { return top + inner_height * (1 - std::log(time / low) / std::log(high / low)); }
};

void text(std::ostream &out, double x, double y, const std::string &anchor, const std::string &words,
          const std::string &colour = "#222") {
    out << "<text x='" << x << "' y='" << y << "' text-anchor='" << anchor << "' fill='" << colour << "'>" << words
        << "</text>\n";
}

std::string shown(double nanoseconds) {
    const auto whole = [](double x) { return std::to_string(static_cast<long>(std::lround(x))); };
    if (nanoseconds < 1e3) return whole(nanoseconds) + " ns";
    if (nanoseconds < 1e6) return whole(nanoseconds / 1e3) + " µs";
    return whole(nanoseconds / 1e6) + " ms";
}

void axes(std::ostream &out, const Panel &panel, const Frame &frame) {
    for (double time = frame.low; time <= frame.high * 1.001; time *= 10) {
        out << "<path d='M" << frame.x0 + left << ' ' << frame.y(time) << "h" << inner_width
            << "' stroke='#ddd'/>\n";
        text(out, frame.x0 + left - 6, frame.y(time) + 4, "end", shown(time));
    }
    for (int size : panel.sizes) text(out, frame.x(size), top + inner_height + 18, "middle", std::to_string(size));
    text(out, frame.x0 + left + inner_width / 2, top + inner_height + 38, "middle", panel.axis);
    text(out, frame.x0 + left + inner_width / 2, top - 16, "middle", panel.title);
}

// Names at the right ends of the lines, kept apart.
void names(std::ostream &out, const Panel &panel, const Frame &frame) {
    std::vector<std::pair<double, size_t>> ends;
    for (size_t k = 0; k < panel.lines.size(); k++) ends.push_back({frame.y(panel.lines[k].nanoseconds.back()), k});
    std::sort(ends.begin(), ends.end());
    double lowest = 0;
    for (const auto &[y, k] : ends) {
        lowest = std::max(y + 4, lowest + 14);
        text(out, frame.x0 + left + inner_width + 8, lowest, "start", panel.lines[k].name, colours[k % 6]);
    }
}

void draw(std::ostream &out, const Panel &panel, double x0) {
    double least = 1e18, most = 1;
    for (const Line &line : panel.lines) {
        for (double time : line.nanoseconds) least = std::min(least, time), most = std::max(most, time);
    }
    const double low = std::pow(10, std::floor(std::log10(least))), high = std::pow(10, std::ceil(std::log10(most)));
    const Frame frame{x0, low, high, double(panel.sizes.front()), double(panel.sizes.back())};
    axes(out, panel, frame);
    for (size_t k = 0; k < panel.lines.size(); k++) {
        out << "<polyline fill='none' stroke-width='2' stroke='" << colours[k % 6] << "' points='";
        for (size_t i = 0; i < panel.sizes.size(); i++) {
            out << frame.x(panel.sizes[i]) << ',' << frame.y(panel.lines[k].nanoseconds[i]) << ' ';
        }
        out << "'/>\n";
    }
    names(out, panel, frame);
}

}  // namespace

bool write_plot(const std::string &path, const std::vector<Panel> &panels) {
    std::ofstream out(path);
    out << "<svg xmlns='http://www.w3.org/2000/svg' width='" << width * panels.size() << "' height='" << height
        << "' font-family='sans-serif' font-size='12'>\n<rect width='100%' height='100%' fill='white'/>\n";
    for (size_t k = 0; k < panels.size(); k++) draw(out, panels[k], width * k);
    out << "</svg>\n";
    return static_cast<bool>(out);
}
