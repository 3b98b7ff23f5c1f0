// The smallest host in C++17: it serves standard input, a content a line. Its one method gives its params back.
#include "bullmyrtle.hpp"

#include <iostream>
#include <string>

static void handle(bullmyrtle::connection &connection, const bullmyrtle::event &event)
{
    if (!event.is_request())
        connection.close(event.number); // done with the notification
    else if (event.name == "echo" && !event.text.empty())
        connection.answer(event.number, event.text);
    else
        connection.fail(event.number, -32601, "Method not found");
}

static void serve()
{
    bm_options options{};
    options.framing = BM_LINES;
    bullmyrtle::connection connection(options);
    for (std::string line; !connection.is_done();) {
        if (std::getline(std::cin, line))
            connection.feed(std::cin.eof() ? line : line + "\n"); // (the last line may have no end)
        else
            connection.end(std::cin.bad());
        while (auto event = connection.next())
            if (event->kind == BM_CALL)
                handle(connection, *event);
        for (auto output = connection.output(); !output.empty(); output = connection.output()) {
            std::cout << output;
            connection.written(output.size());
        }
        std::cout << std::flush;
    }
}

int main()
{
    try {
        serve();
    } catch (const std::exception &error) {
        std::cerr << "host: " << error.what() << "\n";
        return 1;
    }
    return 0;
}
