// How a policy of the project is said to the engine: targets, sets, and the two ways of combining.
#ifndef ENCODING_HPP
#define ENCODING_HPP

#include <unistd.h>

#include <iostream>
#include <string>
#include <vector>

#include <arc/security/ArcPDP/Evaluator.h>
#include <arc/security/ArcPDP/EvaluatorLoader.h>

using ArcSec::Policy;
using ArcSec::Source;
using std::string;

namespace {

struct Attribute {
    bool sets;  // an M: a request holds a set of its values, not one
    string name;
    std::vector<string> values;
};

struct Element {
    char kind;
    string word;
    std::vector<string> target;
    std::vector<size_t> children;
};

struct File {
    std::vector<Attribute> attributes;
    std::vector<Element> elements;
};

// The engine's priority orders: the earliest of the four that any child gives; for no child, the last of the four.
const string PDIN = "Permit-Deny-Indeterminate-NotApplicable";
const string DIPN = "Deny-Indeterminate-Permit-NotApplicable";
const string IPDN = "Indeterminate-Permit-Deny-NotApplicable";
const string PNDI = "Permit-NotApplicable-Deny-Indeterminate";
const string ALGORITHM = "urn:oasis:names:tc:xacml:1.0:rule-combining-algorithm:";
const string DENY_OVERRIDES = ALGORITHM + "deny-overrides";

const string TEXT = "http://www.w3.org/2001/XMLSchema#string";
const string SECTIONS[] = {"Subject", "Resource", "Action", "Environment"};
const size_t HELD = 4;  // attributes that one target holds: entries of one section are ORed

ArcSec::EvaluatorLoader *loader;
ArcSec::Evaluator *evaluator;
File file;

[[noreturn]] void fail(const string &what) {
    std::cerr << "engine: " << what << std::endl;
    _exit(1);
}

std::vector<string> split(const string &line, char by) {
    std::vector<string> fields(1);
    for (char c : line) {
        if (c == by) fields.emplace_back();
        else fields.back() += c;
    }
    return fields;
}

// One attribute of the request for each value, as the engine matches an attribute that is present whatever its value.
string value_id(const Attribute &attribute, const string &value) { return attribute.name + "." + value; }

string target_of(const Element &element, size_t from, size_t to) {
    string xml = "<Target>";
    for (size_t i = from; i < to && i < file.attributes.size(); i++) {
        if (element.target[i] == "*") continue;
        const string &section = SECTIONS[i % HELD];
        xml += "<" + section + "s>";
        for (const string &value : split(element.target[i], ',')) {
            xml += "<" + section + "><" + section + "Match MatchId=\"urn:oasis:names:tc:xacml:1.0:function:string-equal\">"
                + "<AttributeValue DataType=\"" + TEXT + "\">1</AttributeValue>"
                + "<" + section + "AttributeDesignator AttributeId=\"" + value_id(file.attributes[i], value)
                + "\" DataType=\"" + TEXT + "\"/></" + section + "Match></" + section + ">";
        }
        xml += "</" + section + "s>";
    }
    return xml + "</Target>";
}

string rule_of(const string &effect, const string &target) {
    return "<Rule RuleId=\"r\" Effect=\"" + string(effect == "permit" ? "Permit" : "Deny") + "\">" + target + "</Rule>";
}

// A policy below another one; the first one goes to the evaluator, which makes it.
Policy *add(Policy *parent, const string &algorithm, const string &target, const string &rules) {
    string xml = "<Policy xmlns=\"urn:oasis:names:tc:xacml:2.0:policy:schema:os\" PolicyId=\"p\" RuleCombiningAlgId=\""
        + algorithm + "\">" + target + rules + "</Policy>";
    Policy *policy = loader->getPolicy("xacml.policy", Source(xml));
    if (policy == nullptr) fail("policy refused: " + xml);
    if (parent == nullptr) {
        evaluator->addPolicy(policy);
    } else {
        policy->setEvaluatorContext(new ArcSec::EvaluatorContext(evaluator));
        policy->make_policy();
        parent->addPolicy(policy);
    }
    return policy;
}

const string ANY = "<Target/>";

struct Guarded {
    Policy *outer;
    Policy *inner;
};

// An element's target over what stands below it. Attributes 5 and 6 are on an inner policy, the outer one's only child.
Guarded guard(Policy *parent, const Element &element, const string &algorithm, const string &single, const string &rules) {
    if (file.attributes.size() <= HELD) {
        Policy *policy = add(parent, algorithm, target_of(element, 0, HELD), rules);
        return {policy, policy};
    }
    Policy *outer = add(parent, single, target_of(element, 0, HELD), "");
    return {outer, add(outer, algorithm, target_of(element, HELD, 2 * HELD), rules)};
}

void direct(Policy *parent, const Element &element) {
    const string algorithm = ALGORITHM + element.word;
    string rules;
    if (element.kind == 'P' && file.attributes.size() <= HELD) {
        for (size_t child : element.children) {
            rules += rule_of(file.elements[child].word, target_of(file.elements[child], 0, HELD));
        }
        guard(parent, element, algorithm, DENY_OVERRIDES, rules);
        return;
    }
    Policy *inner = guard(parent, element, algorithm, DENY_OVERRIDES, "").inner;
    for (size_t child : element.children) {
        const Element &below = file.elements[child];
        if (below.kind != 'R') direct(inner, below);
        else guard(inner, below, DENY_OVERRIDES, DENY_OVERRIDES, rule_of(below.word, ANY));
    }
}

Policy *encoded(Policy *parent, const Element &element) {
    std::vector<const Element *> children;
    for (size_t child : element.children) children.push_back(&file.elements[child]);
    Guarded made;
    if (element.kind == 'R') {
        made = guard(parent, element, PDIN, PDIN, rule_of(element.word, ANY));
    } else if (element.word == "permit-overrides") {
        made = guard(parent, element, PDIN, PDIN, "");
        for (const Element *child : children) encoded(made.inner, *child);
    } else if (element.word == "deny-overrides") {
        // the inner order gives indeterminate ahead of permit; beside a deny the outer one turns it into deny
        made = guard(parent, element, PNDI, PDIN, "");
        Policy *all = add(made.inner, DIPN, ANY, "");
        for (const Element *child : children) encoded(all, *child);
        add(made.inner, PDIN, ANY, rule_of("deny", ANY));
    } else if (element.word == "first-applicable") {
        // x, then the rest: PDIN(x, DIPN(x, IPDN(x, rest)))
        made = guard(parent, element, PDIN, PDIN, "");
        Policy *rest = made.inner;
        for (size_t i = 0; i < children.size(); i++) {
            Policy *x = encoded(rest, *children[i]);
            if (i + 1 == children.size()) break;
            Policy *second = add(rest, DIPN, ANY, "");
            second->addPolicy(x);
            Policy *third = add(second, IPDN, ANY, "");
            third->addPolicy(x);
            rest = add(third, PDIN, ANY, "");
        }
    } else if (element.word == "only-one-applicable") {
        // for each two children: one target over the other over an empty policy, which gives indeterminate
        made = guard(parent, element, IPDN, PDIN, "");
        for (size_t i = 0; i < children.size(); i++) {
            for (size_t j = i + 1; j < children.size(); j++) {
                guard(guard(made.inner, *children[i], PDIN, PDIN, "").inner, *children[j], DENY_OVERRIDES, PDIN, "");
            }
        }
        for (const Element *child : children) encoded(made.inner, *child);
    } else {
        fail("word " + element.word);
    }
    return made.outer;
}

}  // namespace

#endif
