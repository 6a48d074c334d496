"""Logs of `verify --format sarif`, apart from machcheck: what SARIF 2.1.0 asks of them, and what the printed text says.

`wrong` knows each property of the objects of SARIF that may be in a log, which of them are required, and the rules for
those that `verify` prints (OASIS Standard, 27 March 2020; the numbers are its sections). `differs` compares a log with the
text of the same command, as docs/FORMATS.md, section 9, has it.
"""

import re
import urllib.parse
from pathlib import Path

from objects import HEAD_TEXT, blocks, first_common, without_yes

LEVELS = ("none", "note", "warning", "error")
RULES = ["forbidden", "trusted", "expected"]
# A relative reference (RFC 3986, section 4.2) of a path: no colon in the first part, no query, no fragment.
SIGN = r"[A-Za-z0-9._~!$&'()*+,;=@-]|%[0-9A-Fa-f]{2}"
URI = re.compile(rf"(?!//)(?=.)(?:{SIGN})*(?:/(?:{SIGN}|:|/)*)?")

# The properties of each object that a log may have: its form, or the name of an object; a list is an array of them. `!`
# is behind what is required. What is not here is in no log of SARIF.
ANY = object()
OBJECTS = {
    "sarifLog": {"$schema": str, "version!": "2.1.0", "runs!": ["run"], "inlineExternalProperties": ANY, "properties": ANY},
    "run": {
        "tool!": "tool", "invocations": ["invocation"], "conversion": ANY, "language": str, "versionControlProvenance": ANY,
        "originalUriBaseIds": ANY, "artifacts": ["artifact"], "logicalLocations": ANY, "graphs": ANY, "results": ["result"],
        "automationDetails": ANY, "runAggregates": ANY, "baselineGuid": str, "redactionTokens": ANY, "defaultEncoding": str,
        "defaultSourceLanguage": str, "newlineSequences": [str], "columnKind": ("utf16CodeUnits", "unicodeCodePoints"),
        "externalPropertyFileReferences": ANY, "threadFlowLocations": ["threadFlowLocation"], "taxonomies": ANY,
        "addresses": ANY, "translations": ANY, "policies": ANY, "webRequests": ANY, "webResponses": ANY,
        "specialLocations": ANY, "properties": ANY,
    },
    "tool": {"driver!": "toolComponent", "extensions": ["toolComponent"], "properties": ANY},
    "toolComponent": {
        "guid": str, "name!": str, "organization": str, "product": str, "productSuite": str,
        "shortDescription": "multiformatMessageString", "fullDescription": "multiformatMessageString", "fullName": str,
        "version": str, "semanticVersion": str, "dottedQuadFileVersion": str, "releaseDateUtc": str, "downloadUri": str,
        "informationUri": str, "globalMessageStrings": ANY, "notifications": ["reportingDescriptor"],
        "rules": ["reportingDescriptor"], "taxa": ["reportingDescriptor"], "locations": ["artifactLocation"],
        "language": str, "contents": ANY, "isComprehensive": bool, "localizedDataSemanticVersion": str,
        "minimumRequiredLocalizedDataSemanticVersion": str, "associatedComponent": ANY, "translationMetadata": ANY,
        "supportedTaxonomies": ANY, "properties": ANY,
    },
    "reportingDescriptor": {
        "id!": str, "deprecatedIds": [str], "guid": str, "deprecatedGuids": [str], "name": str, "deprecatedNames": [str],
        "shortDescription": "multiformatMessageString", "fullDescription": "multiformatMessageString",
        "messageStrings": ANY, "defaultConfiguration": ANY, "helpUri": str, "help": "multiformatMessageString",
        "relationships": ANY, "properties": ANY,
    },
    "multiformatMessageString": {"text!": str, "markdown": str, "properties": ANY},
    "invocation": {
        "commandLine": str, "arguments": [str], "responseFiles": ["artifactLocation"], "startTimeUtc": str,
        "endTimeUtc": str, "exitCode": int, "ruleConfigurationOverrides": ANY, "notificationConfigurationOverrides": ANY,
        "toolExecutionNotifications": ["notification"], "toolConfigurationNotifications": ["notification"],
        "exitCodeDescription": str, "exitSignalName": str, "exitSignalNumber": int, "processStartFailureMessage": str,
        "executionSuccessful!": bool, "machine": str, "account": str, "processId": int,
        "executableLocation": "artifactLocation", "workingDirectory": "artifactLocation", "environmentVariables": ANY,
        "stdin": "artifactLocation", "stdout": "artifactLocation", "stderr": "artifactLocation",
        "stdoutStderr": "artifactLocation", "properties": ANY,
    },
    "notification": {
        "locations": ["location"], "message!": "message", "level": LEVELS, "threadId": int, "timeUtc": str,
        "exception": ANY, "descriptor": ANY, "associatedRule": ANY, "properties": ANY,
    },
    "result": {
        "ruleId": str, "ruleIndex": int, "rule": ANY, "level": LEVELS, "message!": "message", "properties": ANY,
        "kind": ("notApplicable", "pass", "fail", "review", "open", "informational"), "analysisTarget": "artifactLocation",
        "locations": ["location"], "guid": str, "correlationGuid": str, "occurrenceCount": int, "partialFingerprints": ANY,
        "fingerprints": ANY, "stacks": ANY, "codeFlows": ["codeFlow"], "graphs": ANY, "graphTraversals": ANY,
        "relatedLocations": ["location"], "suppressions": ["suppression"], "baselineState": str, "rank": int,
        "attachments": ANY, "hostedViewerUri": str, "workItemUris": [str], "provenance": ANY, "fixes": ANY, "taxa": ANY,
        "webRequest": ANY, "webResponse": ANY,
    },
    "suppression": {
        "guid": str, "kind!": ("inSource", "external"), "status": ("accepted", "underReview", "rejected"),
        "justification": str, "location": "location", "properties": ANY,
    },
    "message": {"text": str, "markdown": str, "id": str, "arguments": [str], "properties": ANY},
    "location": {
        "id": int, "physicalLocation": "physicalLocation", "logicalLocations": ANY, "message": "message",
        "annotations": ["region"], "relationships": ANY, "properties": ANY,
    },
    "physicalLocation": {
        "address": ANY, "artifactLocation": "artifactLocation", "region": "region", "contextRegion": "region",
        "properties": ANY,
    },
    "artifactLocation": {"uri": str, "uriBaseId": str, "index": int, "description": "message", "properties": ANY},
    "artifact": {"location": "artifactLocation", "roles": [str], "mimeType": str, "contents": ANY, "properties": ANY},
    "region": {
        "startLine": int, "startColumn": int, "endLine": int, "endColumn": int, "charOffset": int, "charLength": int,
        "byteOffset": int, "byteLength": int, "snippet": ANY, "message": "message", "sourceLanguage": str, "properties": ANY,
    },
    "codeFlow": {"message": "message", "threadFlows!": ["threadFlow"], "properties": ANY},
    "threadFlow": {
        "id": str, "message": "message", "initialState": ANY, "immutableState": ANY, "locations!": ["threadFlowLocation"],
        "properties": ANY,
    },
    "threadFlowLocation": {
        "index": int, "location": "location", "stack": ANY, "kinds": [str], "taxa": ANY, "module": str, "state": ANY,
        "nestingLevel": int, "executionOrder": int, "executionTimeUtc": str, "importance": str, "webRequest": ANY,
        "webResponse": ANY, "properties": ANY,
    },
}


def wrong_message(made):
    """3.11: a text, or an id of one; braces in a text are doubled, since single ones are for arguments."""
    if "text" not in made and "id" not in made:
        return "a message without a text"
    return None if re.fullmatch(r"(?:[^{}]|\{\{|\}\}|\{\d+\})*", made.get("text", "")) else "a brace that is not doubled"


def wrong_place(made):
    """3.29: a place has a file."""
    return None if "artifactLocation" in made or "address" in made else "a place without a file"


def wrong_file(made):
    """3.4: the name of a file is a reference."""
    return None if URI.fullmatch(made.get("uri", "")) else f"no reference: {made}"


def wrong_region(made):
    """3.30: lines and columns count from 1, and a region does not end before it begins."""
    ends = made.get("endLine", made["startLine"]) if "startLine" in made else 1
    is_right = all(made.get(key, 1) >= 1 for key in ("startLine", "startColumn", "endLine", "endColumn"))
    return None if is_right and "startLine" in made and ends >= made["startLine"] else f"no region of lines: {made}"


def wrong_flow(made):
    """3.37: a flow has a place."""
    return None if made["locations"] else "a flow without places"


def wrong_run(made):
    """3.27.6: the number of a result's rule is that of a rule with its id; and each id is there once. 3.27.23: each result
    has suppressions, of which there may be none, or no result has."""
    rules = [rule["id"] for rule in made["tool"]["driver"].get("rules", [])]
    if len(set(rules)) != len(rules):
        return f"two rules have one id: {rules}"
    for result in made.get("results", []):
        index = result.get("ruleIndex", -1)
        if index >= len(rules) or index >= 0 and rules[index] != result.get("ruleId"):
            return f"rule {index} is not {result.get('ruleId')}"
    if len({"suppressions" in result for result in made.get("results", [])}) > 1:
        return "only some results have suppressions"
    return None


RULES_OF = {
    "message": wrong_message, "physicalLocation": wrong_place, "artifactLocation": wrong_file, "region": wrong_region,
    "threadFlow": wrong_flow, "run": wrong_run,
}


def wrong_value(value, form, path):
    """What of the value of a property is wrong, or None."""
    if isinstance(form, str) and form in OBJECTS:
        return wrong(value, form, path)
    if isinstance(form, list):
        if not isinstance(value, list):
            return f"{path} is no array"
        return next(filter(None, (wrong_value(item, form[0], f"{path}[{n}]") for n, item in enumerate(value))), None)
    if form is int:
        fits = type(value) is int and value >= 0
    elif isinstance(form, type):
        fits = isinstance(value, form)
    else:
        fits = form is ANY or value in (form if isinstance(form, tuple) else (form,))
    return None if fits else f"{path} is wrong: {value!r}"


def wrong(value, name="sarifLog", path="log"):
    """What of a value is not as this object of SARIF has to be, or None."""
    forms = {key.rstrip("!"): form for key, form in OBJECTS[name].items()}
    required = {key[:-1] for key in OBJECTS[name] if key.endswith("!")}
    if not isinstance(value, dict) or not required <= value.keys() <= forms.keys():
        return f"{path} has not the properties of {name}: {value!r}"
    below = next(filter(None, (wrong_value(value[key], forms[key], f"{path}.{key}") for key in value)), None)
    broken = None if below or name not in RULES_OF else RULES_OF[name](value)
    return below or (broken and f"{path}: {broken}")


# Lines of MIG files


def tokens_of(text):
    """The tokens of a MIG file, each with the number of its line."""
    form = r"/\*.*?\*/|^[ \t]*#[^\n]*|\"[^\"\n]*\"|<[^>\n]*>|[A-Za-z_]\w*|\d+|[^\s\w]"
    for found in re.finditer(form, text, re.S | re.M):
        if not found[0].startswith("/*") and not found[0].lstrip().startswith("#"):
            yield found[0], text.count("\n", 0, found.start()) + 1


def subsystem_of(text):
    """The name of a MIG file's subsystem, and the line of the word."""
    tokens = [*tokens_of(text)]
    at = next(n for n, (token, _) in enumerate(tokens) if token.lower() == "subsystem")
    name = next(token for token, _ in tokens[at + 1 :] if token.lower() not in ("kernelserver", "kerneluser"))
    return name, tokens[at][1]


def argument_line(text, routine, argument):
    """The line of an argument's name in the statement of a routine."""
    tokens = [*tokens_of(text)]
    starts = [n for n, (token, _) in enumerate(tokens) if token.lower() in ("routine", "simpleroutine")]
    at, depth = next(n for n in starts if tokens[n + 1][0] == routine) + 2, 0
    is_new = False
    while True:
        token, line = tokens[at]
        depth += {"(": 1, ")": -1}.get(token, 0)
        if is_new and depth == 1 and tokens[at + 1][0] == ":":
            if token == argument:
                return line
            is_new = False
        is_new |= depth == 1 and token in "(;"
        at += 1


def in_source(name, text, line):
    """The file and the line that a line of a MIG file is from, by the last line marker above it that has a file's name."""
    for below, above in enumerate(reversed(text.split("\n")[: line - 1])):
        if marker := re.match(r'#(?:line)? *(\d+) +"([^"\\<][^"\\]*)"', above):
            return marker[2], int(marker[1]) + below
    return name, line


# The log of a text


def place_of(source, folder, asked):
    """Where a step comes from, by the text behind `by`: a file and a line, or None for a step without a place of its own."""
    if source is None or source.startswith("task:"):
        return None
    if source.startswith("line "):
        return asked.options["wiring"], int(source.removeprefix("line "))
    subsystem = re.split(r"[. ]", source)[0]
    texts = {name: (folder / name).read_bytes().decode() for name in asked.files}
    (name,) = [name for name, text in texts.items() if subsystem_of(text)[0] == subsystem]
    if source == subsystem:
        return in_source(name, texts[name], subsystem_of(texts[name])[1])
    _, routine, argument = source.split(" ")[0].split(".")
    return in_source(name, texts[name], argument_line(texts[name], routine, argument))


def place_in(location):
    """The file and the line of a location, or None."""
    place = location.get("physicalLocation")
    if place is None:
        return None
    uri = place["artifactLocation"]["uri"]
    return urllib.parse.unquote(uri, errors="strict"), place["region"]["startLine"]


def order_of(told):
    """A number by which what the text tells comes in the order of the results: what is waived and what is lacking is last."""
    return {"trusted": 0, "forbidden": 1}.get(HEAD_TEXT.fullmatch(told[0])[1], 2)


def result_differs(result, head, steps, folder, asked):
    """What of a result is not what the text says, or None."""
    kind, line, _, fact, because = HEAD_TEXT.fullmatch(head).groups()
    line, rule = int(line), kind or "forbidden"
    file = asked.options["wiring" if kind == "trusted" else "policy"]
    if result["ruleId"] != rule or [result.get("level", "warning"), result.get("kind", "fail")] != ["error", "fail"]:
        return f"another rule or level: {result}"
    if [place_in(location) for location in result["locations"]] != [(file, line)]:
        return f"another place than line {line} of {file}: {result['locations']}"
    if fact not in result["message"]["text"]:
        return f"a message without {fact}: {result['message']}"
    reasons = [made.get("justification") for made in result.get("suppressions", []) if made.get("status") != "rejected"]
    if reasons != ([] if because is None else [because]):
        return f"other suppressions than {because!r}: {result.get('suppressions')}"
    if kind not in ("trusted", "forbidden"):
        return f"a chain of {head}" if result.get("codeFlows") else None
    ((flow,),) = [flow["threadFlows"] for flow in result["codeFlows"]]
    told = [(place["location"]["message"]["text"], place_in(place["location"])) for place in flow["locations"]]
    sources = [(re.search(" by (.+)", step) or [None, None])[1] for step in steps]
    right = [(step, place_of(source, folder, asked) or (file, line)) for step, source in zip(steps, sources)]
    return None if told == right else f"other steps than\n{right}:\n{told}"


def differs(log, folder, asked, texts):
    """What of a log is not what the text of the same command says, or None. The text has quotes, and no tree."""
    (run,) = log["runs"]
    (invocation,) = run["invocations"]
    if not invocation["executionSuccessful"] or invocation["exitCode"] != texts.plain.status:
        return f"no invocation with status {texts.plain.status}: {invocation}"
    told = [(notice["level"], notice["locations"], notice["message"]["text"])
            for notice in invocation["toolExecutionNotifications"]]
    right = [("warning", [], line.replace("{", "{{").replace("}", "}}")) for line in texts.plain.err.split("\n")[:-1]]
    if told != right:
        return f"other notifications than {right}: {told}"
    if [rule["id"] for rule in run["tool"]["driver"]["rules"]] != RULES or run["tool"]["driver"]["name"] != "machcheck":
        return f"other rules: {run['tool']}"
    if run["columnKind"] != "unicodeCodePoints":
        return "columns are characters"
    found = sorted(blocks(first_common(without_yes(texts.whole))[2]), key=order_of)
    if len(run["results"]) != len(found):
        return f"{len(run['results'])} results of {len(found)} lines"
    for result, (head, below) in zip(run["results"], found):
        wrong_part = result_differs(result, head, below[1:], Path(folder), asked)
        if wrong_part:
            return wrong_part
    return None


def fault_differs(log, fault):
    """What of the log of a fault is not what its object says, or None. An option is no file."""
    (run,) = log["runs"]
    (invocation,) = run["invocations"]
    (told,) = invocation["toolExecutionNotifications"]
    if invocation["executionSuccessful"] or invocation["exitCode"] != 2 or run["results"]:
        return f"no run that failed: {run}"
    before = f"{fault['file']}: " if fault["file"] is not None else ""
    text = f"machcheck: {before}{fault['fault']}".replace("{", "{{").replace("}", "}}")
    if told["level"] != "error" or told["message"]["text"] != text:
        return f"another notification: {told}"
    region = {"startColumn": fault["column"], "startLine": fault["line"]} if fault["line"] else None
    places = [place["physicalLocation"] for place in told["locations"]]
    right = [(fault["file"], region)] if before and not before.startswith("--") else []
    found = [(urllib.parse.unquote(place["artifactLocation"]["uri"]), place.get("region")) for place in places]
    return None if found == right else f"another place than {right}: {found}"
