"use strict";
// The page of a lab. It asks the calls of docs/protocol.md, and asks again every few seconds while it is
// seen. All that the server tells is put into the page as text, and never as HTML.

// Of each state the word that is shown, its colour, and what it means.
const STATES = {
    PENDING: ["Pending", "waits", "It waits for a bot."],
    RUNNING: ["Running", "runs", "A bot runs it."],
    COMPLETED: ["Completed", "good", "Its run has ended by itself."],
    TIMED_OUT: ["Timed out", "bad", "Its run was ended by a limit of time."],
    BOT_DIED: ["Bot died", "bad", "Its bot fell silent, or began anew, while it ran."],
    KILLED: ["Killed", "stopped", "Its run was asked to stop."],
    CANCELED: ["Canceled", "stopped", "It was canceled while it waited."],
    EXPIRED: ["Expired", "odd", "No bot took it in time."],
    NO_RESOURCE: ["No resource", "odd", "No bot of its pool could run it."],
};
const LASTING = ["PENDING", "RUNNING"];
const ENDED = Object.keys(STATES).filter((state) => !LASTING.includes(state));
// What a bot does, by the first of these that holds: the word, the colour, and what it means.
const DOINGS = [
    [(bot) => bot.is_dead, "Dead", "bad", "It was silent for too long, and gets no work until it begins anew."],
    [(bot) => bot.quarantined, "In quarantine", "odd", "It takes no work."],
    [(bot) => bot.terminating, "Terminating", "stopped", "It was told to end, and ends at its next poll."],
    [(bot) => bot.task_id, "Busy", "runs", "It has a run."],
    [() => true, "Idle", "waits", "It takes work, and has none."],
];
const PLACES = ["first", "second", "third", "fourth", "fifth", "sixth", "seventh", "eighth"];
// What a refusal means: by the code of the server, or by the status where the front itself refuses.
const MEANINGS = {
    denied: "You don't have this permission. The settings of the server give it.",
    no_pool: "The server has no pool of this name. The file pools.json beside this page names the pools.",
    no_task: "There is no task of this id.",
    no_bot: "The pool has no bot of this name.",
    bad_field: "The server doesn't take this value.",
    output_gone: "This output is held no more.",
    blob_missing: "This file is held no more.",
    log_full: "The log of the pool is full. Whoever runs the server has to begin a new one.",
    keeper_fault: "The server can't write its records. Its disk may be full.",
    401: "The front doesn't know you by this name and password.",
    403: "The front doesn't let this page ask.",
    429: "Too many requests came from your address.",
    502: "The server behind the front doesn't answer.",
    504: "The server behind the front doesn't answer in time.",
};
// The rows of a list. The seconds until it is looked at again, and until a task is: one that lasts, and one
// that has ended, of which the ages alone change.
const ROWS = 50;
const LIST_SECONDS = 4;
const TASK_SECONDS = 2;
const ENDED_SECONDS = 20;
// What failed is asked again after these seconds, then after twice as many each time up to the longest.
const FIRST_WAIT = 5;
const LONGEST_WAIT = 60;
const REQUEST_MILLISECONDS = 30000;
// How many bytes of an output are shown; of a longer one its end.
const OUTPUT_SHOWN = 262144;
// How many tasks a pool may have. The ids of the first pool's tasks come before those of the second.
const TASKS_OF_POOL = 262144;
// The calls that boards answer, which the front passes on to them below /board (examples/swarm-proxy.conf),
// and those that change something.
const READS = ["Tasks/CountTasks", "Tasks/ListTasks", "Tasks/GetResult", "Bots/ListBots", "Bots/GetBot"];
const CHANGES = ["Tasks/CancelTask", "Bots/TerminateBot"];
// For how many seconds a board that doesn't show a change of this page yet is asked again.
const LONGEST_AHEAD = 30;

const main = document.querySelector("main");
let pools = [];
// The front of each pool, by its name, behind the last change that this page made there.
const fronts = new Map();
let visit = null;
let timer = 0;
// By how many seconds the server's clock is ahead of this one: ages are by the server's.
let ahead = 0;

// ---- what is asked

class Refusal extends Error {
    constructor(reply, told) {
        super(`${reply.status} ${reply.statusText}`);
        Object.assign(this, { status: reply.status, told });
    }
}
class Silence extends Error {}

async function fetched(path, request = {}) {
    const how = { cache: "no-store", signal: AbortSignal.timeout(REQUEST_MILLISECONDS), ...request };
    // (by the origin, since the address of the page itself may have a name and a password in it)
    const reply = await fetch(location.origin + path, how).catch((it) => { throw new Silence(it.message); });
    const date = Date.parse(reply.headers.get("Date"));
    if (date) ahead = (date - Date.now()) / 1000;
    if (!reply.ok) throw new Refusal(reply, await reply.json().catch(() => null));
    return reply;
}

// What a call answers. A board shows what was published some seconds before: it is asked for the last change
// that was made here, and again each second until it shows that. Once that takes too long it is shown as it is.
async function ask(call, body) {
    const pool = body.pool ?? poolOf(body.task_id);
    const isRead = READS.includes(call);
    const end = Date.now() + LONGEST_AHEAD * 1000;
    for (;;) {
        const headers = isRead && fronts.has(pool) ? { "X-Swarming-After": fronts.get(pool) } : {};
        try {
            const reply = await fetched(`${isRead ? "/board" : ""}/prpc/swarming.v2.${call}`, { method: "POST", body: JSON.stringify(body), headers });
            if (CHANGES.includes(call)) fronts.set(pool, reply.headers.get("X-Swarming-Front"));
            return await reply.json();
        } catch (failed) {
            if (failed.told?.code !== "front_ahead") throw failed;
            if (Date.now() > end) fronts.delete(pool);
            else await new Promise((resolve) => setTimeout(resolve, 1000));
        }
    }
}

// How many tasks of a pool are in each state. A task that has ended stays as it is, so those states are
// counted again only where there are more of them than before.
async function countsOf(pool, known = {}) {
    const count = async (state) => [state, (await ask("Tasks/CountTasks", { pool, state })).count];
    const countAll = async (states) => Object.fromEntries(await Promise.all(states.map(count)));
    const counts = { ...known, ...await countAll(["ALL", ...LASTING]) };
    const sum = Object.keys(STATES).reduce((total, state) => total + (counts[state] ?? NaN), 0);
    return sum === counts.ALL ? counts : { ...counts, ...await countAll(ENDED) };
}

// The output of a task so far, or its end: what was read before, and what came since. A second run begins anew.
async function outputOf(task, known) {
    const begin = Math.max(0, task.output_length - OUTPUT_SHOWN);
    const anew = { run: task.run_id, offset: begin, isCut: begin > 0, text: "", decoder: new TextDecoder() };
    const it = known?.run === task.run_id ? known : anew;
    while (it.offset < task.output_length) {
        const told = await ask("Tasks/GetStdout", { task_id: task.run_id ?? task.task_id, offset: it.offset });
        const piece = Uint8Array.from(atob(told.output), (character) => character.charCodeAt(0));
        if (!piece.length) break;
        it.offset += piece.length;
        it.text += it.decoder.decode(piece, { stream: true });
        if (it.text.length > 2 * OUTPUT_SHOWN) Object.assign(it, { text: it.text.slice(-OUTPUT_SHOWN), isCut: true });
    }
    return it;
}

async function save(pool, file) {
    const reply = await fetched(`/blobs/${encodeURIComponent(pool)}/${file.digest}`);
    const address = URL.createObjectURL(await reply.blob());
    element("a", { href: address, download: file.path.split("/").pop() }).click();
    setTimeout(() => URL.revokeObjectURL(address), LONGEST_WAIT * 1000);
    return `The file ${file.path} is saved.`;
}

// ---- how it is shown

// An element with these attributes and children, of which null stands for none.
function element(name, attributes, ...children) {
    const it = document.createElement(name);
    for (const [key, value] of Object.entries(attributes)) {
        if (key === "onclick") it.onclick = value;
        else if (value !== null) it.setAttribute(key, value);
    }
    it.append(...children.flat().filter((child) => child !== null));
    return it;
}

// Makes the children of an element those that are wanted. What is there already stays, a row by its key
// and anything else by its place, so that focus, selection and scrolling stay with it.
function patch(parent, wanted) {
    const keys = new Set(wanted.map((it) => it.dataset?.key));
    for (const child of [...parent.children]) if (child.dataset.key && !keys.has(child.dataset.key)) child.remove();
    let at = parent.firstChild;
    for (const it of wanted) {
        if (at && at.nodeName === it.nodeName && at.dataset?.key === it.dataset?.key) {
            patchNode(at, it);
            at = at.nextSibling;
        } else {
            parent.insertBefore(it, at);
        }
    }
    while (at) {
        const next = at.nextSibling;
        at.remove();
        at = next;
    }
}

function patchNode(node, wanted) {
    if (node.nodeType === Node.TEXT_NODE) {
        if (!wanted.data.startsWith(node.data)) node.data = wanted.data;
        else if (wanted.length > node.length) node.appendData(wanted.data.slice(node.length));
        return;
    }
    for (const { name } of [...node.attributes]) if (!wanted.hasAttribute(name)) node.removeAttribute(name);
    for (const { name, value } of wanted.attributes) if (node.getAttribute(name) !== value) node.setAttribute(name, value);
    node.onclick = wanted.onclick;
    patch(node, [...wanted.childNodes]);
}

const heading = (...content) => element("h1", { tabindex: "-1" }, content);
const paragraph = (...content) => element("p", {}, content);
const quiet = (text) => element("span", { class: "quiet" }, text);
const mark = (word, colour) => element("span", { class: `mark ${colour}` }, word);
const button = (text, onclick, attributes = {}) => element("button", { type: "button", onclick, ...attributes }, text);
// A text that somebody else wrote, which may run from right to left.
const foreign = (text) => element("bdi", {}, text);
const bytes = (count) => `${count.toLocaleString()} ${count === 1 ? "byte" : "bytes"}`;

function link(words, content, attributes = {}) {
    return element("a", { href: "#/" + words.map(encodeURIComponent).join("/"), ...attributes }, content);
}

// So many seconds in words: with their greatest units, one or two.
function span(seconds, most = 2) {
    const words = [];
    let left = Math.max(0, Math.floor(seconds));
    for (const [size, unit] of [[86400, "d"], [3600, "h"], [60, "min"], [1, "s"]]) {
        if (left >= size || (size === 1 && !words.length)) words.push(`${Math.floor(left / size)} ${unit}`);
        left %= size;
    }
    return words.slice(0, most).join(" ");
}

function moment(seconds) {
    const at = new Date(seconds * 1000);
    const isToday = at.toDateString() === new Date().toDateString();
    const shown = isToday ? at.toLocaleTimeString() : at.toLocaleString(undefined, { dateStyle: "medium", timeStyle: "short" });
    const age = quiet(` (${span(Date.now() / 1000 + ahead - seconds, 1)} ago)`);
    return element("time", { datetime: at.toISOString(), title: at.toLocaleString() }, shown, age);
}

// (a command that has ended by itself may have failed, which its exit code says)
function markOf(task) {
    const [word, colour] = STATES[task.state] ?? [task.state, "odd"];
    const hasFailed = task.state === "COMPLETED" && task.exit_code !== 0;
    return hasFailed ? mark(`${word}, exit ${task.exit_code}`, "bad") : mark(word, colour);
}

function doingOf(bot) {
    return DOINGS.find(([holds]) => holds(bot)).slice(1);
}

function linkToRun(run) {
    const task = run.slice(0, -1) + "0";
    return link(["task", task], `task ${task}`);
}

// The pool of a task, by its place in pools.json, which has the order of the server's settings.
function poolOf(task) {
    return pools[Math.floor((parseInt(task.slice(0, -1), 16) - 1) / TASKS_OF_POOL)] ?? null;
}

function facts(rows) {
    const row = ([name, value]) => element("div", { "data-key": name }, element("dt", {}, name), element("dd", {}, value));
    return element("dl", {}, rows.filter(([, value]) => value !== null).map(row));
}

// (the roles stay where a narrow screen makes blocks of the rows)
function table(caption, names, rows) {
    const column = (at) => `of-${names[at].toLowerCase()}`;
    const head = names.map((name, at) => element("th", { role: "columnheader", scope: "col", class: column(at) }, name));
    const row = ([key, ...cells]) => element("tr", { role: "row", "data-key": key },
        cells.map((content, at) => element("td", { role: "cell", class: column(at) }, content)));
    return element("table", { role: "table" }, element("caption", {}, caption),
        element("thead", { role: "rowgroup" }, element("tr", { role: "row" }, head)),
        element("tbody", { role: "rowgroup" }, rows.map(row)));
}

// What a request that failed came to, as the server told it, and what that means.
function fault(it) {
    const line = (bold, text) => paragraph(element("strong", {}, bold), text);
    if (it instanceof Silence) return [line("The server can't be reached.", ` ${it.message}`)];
    if (!(it instanceof Refusal)) return [line("What came can't be shown.", ` ${it.message}`)];
    const { code, ...members } = it.told ?? {};
    const told = Object.entries(members).map(([name, value]) => `${name}: ${value}`).join(", ");
    const meaning = MEANINGS[code ?? it.status];
    const lines = [line(`Refused: ${code ? `${it.status} ${code}` : it.message}`, told && ` (${told})`)];
    return meaning ? [...lines, paragraph(meaning)] : lines;
}

// A part of a view. Where what it shows can't be had, it says so, shows what it had before, and waits
// longer than the other parts until it asks again.
async function part(parts, name, load, draw) {
    const it = parts[name] ??= { wait: 0, until: 0 };
    if (Date.now() >= it.until) {
        try {
            it.data = await load(it.data);
            Object.assign(it, { fault: null, wait: 0, at: new Date() });
        } catch (failed) {
            const wait = Math.min(it.wait * 2 || FIRST_WAIT, LONGEST_WAIT);
            Object.assign(it, { fault: failed, wait, until: Date.now() + wait * 1000 });
        }
    }
    const shown = it.at ? draw(it.data).filter((node) => node !== null) : [];
    if (!it.fault) return shown;
    const before = it.at ? `What stands below is of ${it.at.toLocaleTimeString()}. ` : "";
    const again = () => {
        it.until = 0;
        refresh();
    };
    const last = paragraph(`${before}Next try at ${new Date(it.until).toLocaleTimeString()}. `, button("Ask now", again));
    return [element("div", { class: "fault", role: "alert", "data-key": `fault ${name}` }, fault(it.fault), last), ...shown];
}

// ---- what a person does

function say(lines, isFault = false) {
    const said = document.getElementById("said");
    said.hidden = !lines.length;
    said.className = isFault ? "fault" : "";
    said.replaceChildren(...lines);
}

async function act(what) {
    const mine = visit;
    let said;
    try {
        said = [[paragraph(await what())], false];
    } catch (failed) {
        said = [fault(failed), true];
    }
    if (mine === visit) say(...said);
    refresh();
}

// Asks a question, and acts where the answer is yes.
function question(sentence, meaning, yes, what) {
    const dialog = document.getElementById("question");
    for (const [id, text] of Object.entries({ sentence, meaning, yes })) document.getElementById(id).textContent = text;
    dialog.returnValue = "no";
    dialog.onclose = () => {
        if (dialog.returnValue === "yes") act(what);
    };
    dialog.showModal();
    document.getElementById("no").focus();
}

function cancelButton(task) {
    const runs = task.state === "RUNNING";
    const named = `task ${task.task_id}${task.name && ` (${task.name})`}`;
    const cancel = async () => {
        const told = await ask("Tasks/CancelTask", { task_id: task.task_id, kill_running: runs });
        if (told.canceled) return told.was_running ? "The run is asked to stop." : "The task is canceled.";
        return told.was_running ? "A bot has taken the task meanwhile, so it runs on." : "The task had ended before.";
    };
    const stop = () => question(`Stop the run of ${named}?`,
        "Its bot is told at its next report, and ends the command. The task is killed then.", "Yes, stop it", cancel);
    return runs ? button("Stop the run", stop)
        : button("Cancel the task", () => question(`Cancel ${named}?`, "It ends without a run.", "Yes, cancel it", cancel));
}

function terminateButton(pool, bot_id) {
    const terminate = async () => {
        await ask("Bots/TerminateBot", { pool, bot_id });
        return `The bot ${bot_id} is told to end at its next poll.`;
    };
    return button("Terminate the bot", () => question(`Terminate the bot ${bot_id}?`,
        "It ends at its next poll; a run that it has goes on to its end. It has to be started again on its own machine.",
        "Yes, terminate it", terminate));
}

// ---- the views: each answers its title, the seconds until it is looked at again, and what it shows

// The counts of the states, each a link to its tasks.
function filter(pool, counts, chosen) {
    const one = (state, word, colour) => element("li", { class: counts[state] ? "" : "none" },
        link(["pool", pool, "tasks", ...(state === "ALL" ? [] : [state])], [mark(word, colour), element("b", {}, counts[state].toLocaleString())],
            { "aria-current": state === chosen ? "true" : null }));
    const states = Object.entries(STATES).map(([state, [word, colour]]) => one(state, word, colour));
    return element("ul", { class: "filter", "aria-label": "Tasks by state" }, one("ALL", "All", "all"), states);
}

async function viewPools(parts) {
    const section = async (pool) => element("section", { "data-key": pool },
        element("h2", {}, link(["pool", pool, "tasks"], pool)),
        await part(parts, pool, (known) => countsOf(pool, known), (counts) => [filter(pool, counts, null)]),
        paragraph(link(["pool", pool, "bots"], `Bots of ${pool}`)));
    const sections = pools.length ? await Promise.all(pools.map(section)) : [paragraph("The file pools.json beside this page names no pool.")];
    return ["Pools", LIST_SECONDS, [heading("Pools"), ...sections]];
}

function tabs(pool, chosen) {
    const tab = (word, text) => link(["pool", pool, word], text, { "aria-current": word === chosen ? "page" : null });
    return [heading("Pool ", pool), element("nav", { class: "tabs", "aria-label": "Of this pool" }, tab("tasks", "Tasks"), tab("bots", "Bots"))];
}

function pager(words, cursor, next, first, more) {
    const links = [cursor ? link(words, first) : null, next === null ? null : link([...words, next], more)];
    return cursor || next !== null ? element("nav", { class: "pager", "aria-label": "Pages" }, links) : null;
}

async function viewTasks(parts, pool, state = "ALL", cursor = null) {
    const load = async (known) => ({
        page: await ask("Tasks/ListTasks", { pool, state, limit: ROWS, cursor }),
        counts: await countsOf(pool, known?.counts),
    });
    const row = (task) => [task.task_id,
        [link(["task", task.task_id], task.name ? foreign(task.name) : "(no name)"), element("span", { class: "id" }, task.task_id)],
        markOf(task), moment(task.created_ts), foreign(task.user), task.bot_id ?? ""];
    const none = state === "ALL" ? "No task was sent to this pool yet." : `No task of this pool is in the state ${STATES[state]?.[0] ?? state}.`;
    const draw = ({ page, counts }) => [
        filter(pool, counts, state),
        page.items.length
            ? table(`Tasks of the pool ${pool}, the newest first`, ["Task", "State", "Created", "By", "Bot"], page.items.map(row))
            : element("p", { class: "quiet" }, cursor ? "There are no older tasks." : none),
        pager(["pool", pool, "tasks", state], cursor, page.cursor, "Newest tasks", "Older tasks"),
    ];
    return [`Tasks of ${pool}`, LIST_SECONDS, [...tabs(pool, "tasks"), ...await part(parts, "tasks", load, draw)]];
}

async function viewBots(parts, pool, cursor = "") {
    const has = (bot) => bot.dimensions.filter(({ key }) => key !== "pool" && key !== "id").map(({ key, value }) => `${key}: ${value.join(", ")}`);
    const row = (bot) => [bot.bot_id, link(["pool", pool, "bot", bot.bot_id], bot.bot_id), mark(...doingOf(bot)),
        bot.task_id ? linkToRun(bot.task_id) : "", moment(bot.last_seen_ts), foreign(has(bot).join("; "))];
    const draw = ({ items, cursor: next }) => [
        items.length ? table(`Bots of the pool ${pool}, by name`, ["Bot", "State", "Runs", "Heard", "Has"], items.map(row))
            : element("p", { class: "quiet" }, cursor ? "There are no further bots." : "No bot has come to this pool yet."),
        pager(["pool", pool, "bots"], cursor, next, "First bots", "Further bots"),
    ];
    const load = () => ask("Bots/ListBots", { pool, limit: ROWS, cursor });
    return [`Bots of ${pool}`, LIST_SECONDS, [...tabs(pool, "bots"), ...await part(parts, "bots", load, draw)]];
}

async function viewBot(parts, pool, name = "") {
    const draw = (bot) => [
        element("p", { class: "lead" }, mark(...doingOf(bot)), ` ${doingOf(bot)[2]}`),
        bot.terminating || bot.is_dead ? null : element("p", { class: "actions" }, terminateButton(pool, bot.bot_id)),
        facts([
            ["Pool", link(["pool", pool, "bots"], pool)],
            ["Runs", bot.task_id ? linkToRun(bot.task_id) : "nothing"],
            ["Heard", moment(bot.last_seen_ts)],
            ["Quarantine", bot.quarantined ? foreign(bot.quarantined) : null],
        ]),
        element("h2", {}, "What it has"),
        facts(bot.dimensions.map(({ key, value }) => [key, foreign(value.join(", "))])),
    ];
    const load = () => ask("Bots/GetBot", { pool, bot_id: name });
    return [`Bot ${name}`, LIST_SECONDS, [heading("Bot ", name), ...await part(parts, "bot", load, draw)]];
}

function factsOf(task, pool) {
    return facts([
        ["Task", task.task_id],
        ["Pool", pool && link(["pool", pool, "tasks"], pool)],
        ["Sent by", foreign(task.user)],
        ["Priority", task.priority],
        ["Slice", PLACES[task.current_task_slice] ?? task.current_task_slice],
        ["Created", moment(task.created_ts)],
        ["Waited", task.started_ts && span(task.started_ts - task.created_ts)],
        ["Started", task.started_ts && moment(task.started_ts)],
        ["Ended", task.completed_ts && moment(task.completed_ts)],
        ["Run", task.run_id],
        ["Bot", task.bot_id && pool ? link(["pool", pool, "bot", task.bot_id], task.bot_id) : task.bot_id],
        ["Exit code", task.exit_code],
        ["Run time", task.duration_ms === null ? null : `${(task.duration_ms / 1000).toLocaleString()} s`],
        ["Outcome of", task.deduped_from && linkToRun(task.deduped_from)],
        ["Dropped", task.dropped ? `${bytes(task.dropped)} of output` : null],
    ]);
}

function filesOf(task, pool) {
    const saving = (file) => button("Save", () => act(() => save(pool, file)), { "aria-label": `Save ${file.path}` });
    return element("ul", { class: "files" }, task.files.map((file) =>
        element("li", {}, foreign(file.path), quiet(` ${bytes(file.size)} `), pool ? saving(file) : null)));
}

async function viewTask(parts, id) {
    let task = null;
    const isOver = (it) => it && !LASTING.includes(it.state);
    const draw = (it) => {
        task = it;
        const pool = poolOf(it.task_id);
        const meaning = it.deduped_from ? "It took the outcome of an earlier run." : STATES[it.state]?.[2] ?? "";
        return [
            element("p", { class: "lead" }, markOf(it), ` ${meaning}`),
            isOver(it) ? null : element("p", { class: "actions" }, cancelButton(it)),
            factsOf(it, pool),
            ...(it.files.length ? [element("h2", {}, "Files"), filesOf(it, pool)] : []),
            element("h2", {}, "Output ", quiet(bytes(it.output_length))),
        ];
    };
    const drawOutput = ({ text, isCut }) => [
        isCut ? paragraph(`This is its end. The command "swarm collect ${id}" prints all of it.`) : null,
        text ? element("pre", { tabindex: "0", role: "region", "aria-label": "Output", "data-key": "output", class: isOver(task) ? "" : "grows" }, text)
            : element("p", { class: "quiet" }, isOver(task) ? "There is none." : "There is none yet."),
    ];
    const shown = await part(parts, "task", (known) => (isOver(known) ? known : ask("Tasks/GetResult", { task_id: id })), draw);
    const output = task ? await part(parts, "output", (known) => outputOf(task, known), drawOutput) : [];
    const title = task?.name || `Task ${id}`;
    return [task ? `${title}: ${STATES[task.state]?.[0] ?? task.state}` : title, isOver(task) ? ENDED_SECONDS : TASK_SECONDS,
        [heading(foreign(title)), ...shown, ...output]];
}

async function viewNothing() {
    return ["Not found", LONGEST_WAIT, [heading("There is no such view"), paragraph(link([], "All pools"))]];
}

// ---- going from view to view, and looking again

function wordsOfAddress() {
    try {
        return location.hash.replace(/^#?\/?/, "").split("/").filter((it) => it).map(decodeURIComponent);
    } catch {
        return ["nothing"];
    }
}

function viewOf([first, name, kind, ...rest]) {
    const views = { tasks: viewTasks, bots: viewBots, bot: viewBot };
    if (!first) return viewPools;
    if (first === "task" && name && !kind) return (parts) => viewTask(parts, name);
    return first === "pool" && Object.hasOwn(views, kind ?? "") ? (parts) => views[kind](parts, name, ...rest) : viewNothing;
}

function go() {
    const words = wordsOfAddress();
    // (from one state of a list to another the focus stays where it is)
    const subject = JSON.stringify(["tasks", "bots"].includes(words[2]) ? words.slice(0, 3) : words);
    visit = { view: viewOf(words), subject, isNew: subject !== visit?.subject, isFirst: !visit, parts: {}, isBusy: false, isWanted: false };
    const current = (pool) => ({ "aria-current": words[0] === "pool" && words[1] === pool ? "true" : null });
    patch(document.getElementById("pools"), pools.map((pool) => link(["pool", pool, "tasks"], pool, current(pool))));
    say([]);
    main.setAttribute("aria-busy", "true");
    refresh();
}

function show([title, seconds, tree]) {
    const held = document.activeElement;
    const before = main.querySelector("pre");
    const wasAtEnd = before && before.scrollTop + before.clientHeight >= before.scrollHeight - 8;
    if (visit.isNew) main.replaceChildren(...tree);
    else patch(main, tree);
    // (an output that grows is followed, where its end is seen)
    const output = main.querySelector("pre");
    if (output && (before && !visit.isNew ? wasAtEnd : output.className)) output.scrollTop = output.scrollHeight;
    if ((visit.isNew && !visit.isFirst) || !held.isConnected) main.querySelector("h1").focus();
    visit.isNew = false;
    main.removeAttribute("aria-busy");
    document.title = `${title} - swarm`;
    document.getElementById("asked").textContent = `Looked at ${new Date().toLocaleTimeString()}, and every ${seconds} seconds while this page is seen.`;
}

// Looks at what the view shows: one look at a time, so that no answer counts twice or comes late.
async function refresh() {
    const mine = visit;
    clearTimeout(timer);
    mine.isWanted = true;
    if (mine.isBusy) return;
    mine.isBusy = true;
    let seconds = 0;
    while (mine.isWanted) {
        mine.isWanted = false;
        const failed = (it) => ["Fault", LONGEST_WAIT, [heading("Fault"), ...fault(it)]];
        const shown = await mine.view(mine.parts).catch(failed);
        if (mine !== visit) return;
        show(shown);
        seconds = shown[1];
    }
    mine.isBusy = false;
    if (!document.hidden) timer = setTimeout(refresh, seconds * 1000);
}

async function begin() {
    try {
        const reply = await fetched(location.pathname.replace(/[^/]*$/, "pools.json"), { cache: "no-cache" });
        pools = await reply.json();
        if (!Array.isArray(pools) || !pools.every((it) => typeof it === "string")) throw new Error("It is no list of names.");
    } catch (failed) {
        main.replaceChildren(heading("The file pools.json can't be read"), element("div", { class: "fault", role: "alert" }, fault(failed)));
        main.removeAttribute("aria-busy");
        return;
    }
    document.getElementById("find").addEventListener("submit", (event) => {
        event.preventDefault();
        location.hash = "#/task/" + encodeURIComponent(document.getElementById("wanted").value.trim());
    });
    window.addEventListener("hashchange", go);
    document.addEventListener("visibilitychange", () => (document.hidden ? clearTimeout(timer) : refresh()));
    go();
}

begin();
