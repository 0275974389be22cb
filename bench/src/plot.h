// A picture of a table of times: one line for each solver, both axes logarithmic.
#pragma once
#include <string>
#include <vector>

struct Line {
    std::string name;
    std::vector<double> nanoseconds;
};

struct Panel {
    std::string title, axis;
    std::vector<int> sizes;
    std::vector<Line> lines;
};

// Writes an SVG file with the panels side by side; false if it cannot be written.
bool write_plot(const std::string &path, const std::vector<Panel> &panels);
