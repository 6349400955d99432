// Decides policies by NorduGrid ARC's XACML evaluator.
//
// Reads policies in the project's format, each ended by a line `=`, and writes them again with the decisions of all
// requests, in number order, behind that `=`: P permit, D deny, N not-applicable, I indeterminate, ? no answer.
//
//   engine direct   deny-overrides and permit-overrides are the engine's own
//   engine encoded  all four algorithms, made of the engine's priority orders (the law of combining is then ours)
//   engine law      what the engine's own two give for every list of up to three children
#include "encoding.hpp"

#include <fcntl.h>

#include <cstdio>

#include <arc/ArcLocation.h>
#include <arc/Thread.h>

namespace {

// What an attribute counts in the space.
size_t count_of(const Attribute &attribute) {
    return attribute.sets ? (size_t(1) << attribute.values.size()) - 1 : attribute.values.size();
}

// The values that a request holds of an attribute. The number of a set is the sum of 2 to the power of each value's
// number, less 1.
std::vector<string> held(const Attribute &attribute, size_t number) {
    if (!attribute.sets) return {attribute.values[number]};
    std::vector<string> values;
    for (size_t value = 0; value < attribute.values.size(); value++) {
        if ((number + 1) >> value & 1) values.push_back(attribute.values[value]);
    }
    return values;
}

// A number for each attribute: of its value, or of its set of values.
string request_of(const std::vector<size_t> &numbers) {
    string xml = "<Request xmlns=\"urn:oasis:names:tc:xacml:2.0:context:schema:os\">";
    for (size_t section = 0; section < HELD; section++) {
        xml += "<" + SECTIONS[section] + ">";
        for (size_t i = section; i < numbers.size(); i += HELD) {
            for (const string &value : held(file.attributes[i], numbers[i])) {
                xml += "<Attribute AttributeId=\"" + value_id(file.attributes[i], value) + "\" DataType=\"" + TEXT
                    + "\"><AttributeValue>1</AttributeValue></Attribute>";
            }
        }
        xml += "</" + SECTIONS[section] + ">";
    }
    return xml + "</Request>";
}

char decide(const std::vector<size_t> &numbers) {
    ArcSec::Response *response = evaluator->evaluate(Source(request_of(numbers)));
    char decision = '?';
    if (response != nullptr && response->getResponseItems().size() == 1) {
        switch (response->getResponseItems()[0]->res) {
            case ArcSec::DECISION_PERMIT: decision = 'P'; break;
            case ArcSec::DECISION_DENY: decision = 'D'; break;
            case ArcSec::DECISION_NOT_APPLICABLE: decision = 'N'; break;
            case ArcSec::DECISION_INDETERMINATE: decision = 'I'; break;
        }
    }
    delete response;
    return decision;
}

// An evaluator for each file: nothing of an earlier one is left in it.
void start() {
    evaluator = loader->getEvaluator("xacml.evaluator");
    if (evaluator == nullptr) fail("no evaluator: is nordugrid-arc-plugins-needed installed?");
}

string decide_all(bool by_orders) {
    start();
    if (by_orders) encoded(nullptr, file.elements.at(0));
    else direct(nullptr, file.elements.at(0));
    string decisions;
    std::vector<size_t> numbers(file.attributes.size(), 0);
    for (;;) {
        decisions += decide(numbers);
        size_t place = numbers.size();
        while (place > 0 && numbers[place - 1] + 1 == count_of(file.attributes[place - 1])) numbers[--place] = 0;
        if (place == 0) return decisions;
        numbers[place - 1]++;
    }
}

void take(const string &line) {
    static std::vector<size_t> above;
    std::vector<string> fields = split(line, '\t');
    if (fields[0] == "A" || fields[0] == "M") {
        file.attributes.push_back({fields[0] == "M", fields.at(1), {fields.begin() + 2, fields.end()}});
        return;
    }
    size_t depth = static_cast<size_t>(fields.at(1)[0] - '0');
    above.resize(depth);
    if (depth > 0) file.elements[above[depth - 1]].children.push_back(file.elements.size());
    above.push_back(file.elements.size());
    file.elements.push_back({fields[0][0], fields.at(3), {fields.begin() + 4, fields.end()}, {}});
}

// What an algorithm gives for children whose decisions are known.
char combined(const string &algorithm, const string &list) {
    start();
    Policy *top = add(nullptr, algorithm, ANY, "");
    for (char child : list) {
        if (child == 'P') add(top, PDIN, ANY, rule_of("permit", ANY));
        if (child == 'D') add(top, PDIN, ANY, rule_of("deny", ANY));
        if (child == 'N') add(top, PDIN, ANY, "");
        if (child == 'I') add(top, DENY_OVERRIDES, ANY, "");
    }
    return decide({});
}

std::vector<string> lists() {
    std::vector<string> all = {""};
    for (size_t i = 0; i < all.size(); i++) {
        for (char last : string("PDNI")) {
            if (all[i].size() < 3) all.push_back(all[i] + last);
        }
    }
    return all;
}

// The encoding stands on the orders being strict: tried before it is used.
void try_orders() {
    const std::vector<std::vector<string>> orders = {{PDIN, "PDIN"}, {DIPN, "DIPN"}, {IPDN, "IPDN"}, {PNDI, "PNDI"}};
    for (const auto &order : orders) {
        for (const string &list : lists()) {
            size_t first = list.empty() ? 3 : order[1].find_first_of(list);
            if (combined(order[0], list) != order[1][first]) fail(order[0] + " of " + list);
        }
    }
}

}  // namespace

int main(int count, char **words) {
    const string mode = count == 2 ? words[1] : "";
    // the engine prints to standard output
    FILE *out = fdopen(dup(STDOUT_FILENO), "w");
    if (out == nullptr || dup2(open("/dev/null", O_WRONLY), STDOUT_FILENO) < 0) fail("no output");
    Arc::GlibThreadInitialize();
    Arc::ArcLocation::Init("/usr/bin/engine");
    loader = new ArcSec::EvaluatorLoader;
    if (mode == "law") {
        for (const string &word : {string("deny-overrides"), string("permit-overrides")}) {
            fprintf(out, "%s", word.c_str());
            for (const string &list : lists()) fprintf(out, " %s=%c", list.c_str(), combined(ALGORITHM + word, list));
            fprintf(out, "\n");
        }
    } else if (mode == "direct" || mode == "encoded") {
        if (mode == "encoded") try_orders();
        for (string line; std::getline(std::cin, line);) {
            if (line == "=") {
                fprintf(out, "=%s\n", decide_all(mode == "encoded").c_str());
                file = File();
            } else {
                take(line);
                fprintf(out, "%s\n", line.c_str());
            }
        }
    } else {
        fail("direct, encoded or law?");
    }
    int bad = fflush(out) != 0;
    _exit(bad);  // a normal exit hangs
}
