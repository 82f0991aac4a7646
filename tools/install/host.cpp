// A host of the installed library, in C++ (host.c).
#include <iostream>
#include <laddertick.h>
#include <string>
#include <vector>

static const uint8_t *bytes(const std::string &s)
{
    return reinterpret_cast<const uint8_t *>(s.data());
}

// The file's label with another text, and for 300 dots an inch (host.c).
static void write_again(const std::string &file)
{
    const std::string both = file + "Bag 8";
    const laddertick_answer first = laddertick_step(bytes(file), file.size(), laddertick_start());
    std::vector<laddertick_element> elements = {first.element, laddertick_step(bytes(file), file.size(), first.next).element};
    elements[1].data_start = file.size();
    std::vector<uint8_t> out(96);
    const auto text = [&out](laddertick_written w) { return std::string(out.begin(), out.begin() + static_cast<std::ptrdiff_t>(w.place)); };
    std::cout << "write " << text(laddertick_write(bytes(both), both.size(), elements[1], out.data(), out.size()));
    const std::string label = text(laddertick_write_label(bytes(both), both.size(), elements.data(), elements.size(), 2, 3, out.data(), out.size()));
    std::cout << "write_label " << label.size() << " bytes, read again " << laddertick_list(bytes(label), label.size(), nullptr, 0).place << "\n";
    laddertick_entry entry;
    laddertick_index(bytes(file), file.size(), &entry, 1);
    std::vector<laddertick_element_300> list(entry.count);
    const laddertick_label l = laddertick_to_300(bytes(file), file.size(), &entry, 1, 0, list.data(), list.size());
    std::cout << "write_label_300 "
              << text(laddertick_write_label_300(bytes(file), file.size(), list.data(), list.size(), l.sets, l.copies, out.data(), out.size()));
    elements[0].width = -1;
    const laddertick_written w = laddertick_write(bytes(file), file.size(), elements[0], out.data(), out.size());
    std::cout << "refused " << w.number << " at " << w.place << ": " << laddertick_meaning(w.number) << "\n";
}

int main()
{
    const std::string file = "R10,20\nLO5,6,30,4\nA5,40,0,2,1,1,N,\"Bag 7\"\nP2,3\n", refused = "N\nB0,0,0,1D,2,2,9,B,\"x\"\n";
    const size_t n = file.size();
    std::cout << "version " << laddertick_version() << "\n";
    laddertick_walk walk = laddertick_start();
    for (;;) {
        const laddertick_answer a = laddertick_step(bytes(file), n, walk);
        if (a.kind == LADDERTICK_END || a.kind == LADDERTICK_REFUSED)
            break;
        if (a.kind == LADDERTICK_TEXT)
            std::cout << "text at " << a.element.x << "," << a.element.y << ": " << file.substr(a.element.data_start, a.element.data_len) << "\n";
        else if (a.kind == LADDERTICK_PRINT)
            std::cout << "label: " << a.count << " elements, " << a.sets << " sets, " << a.copies << " copies\n";
        walk = a.next;
    }
    std::vector<uint8_t> out(LADDERTICK_LIST_ROOM(n)), text(LADDERTICK_NORMALISE_ROOM(n)), joined(LADDERTICK_JOIN_ROOM(n, n));
    std::cout << "list " << laddertick_list(bytes(file), n, out.data(), out.size()).place << ", normalise "
              << laddertick_normalise(bytes(file), n, text.data(), text.size()).place << ", join "
              << laddertick_join(bytes(file), n, bytes(file), n, joined.data(), joined.size()).place << " bytes\n";
    const laddertick_walk at = {0, 0, 0, 2};
    const laddertick_answer a = laddertick_step(bytes(refused), refused.size(), at);
    std::cout << "refused " << int(a.number) << " at " << a.place << ": " << laddertick_meaning(a.number) << "\n";
    write_again(file);
}
