// What the desk decided, for the proxy's log: planning_result, and the note, or the error code of a refusal.
// nginx.conf hands each answer of the desk through `pass`, by which no byte of it changes.

// Answers that have these are shorter. Longer ones are lists and shown plans.
const LONGEST = 1024;

// Hands on a part of an answer, and reads it if it may be the whole of a short one.
function pass(r, data, flags) {
    if (data.length > 0 && data.length < LONGEST) {
        read(r, data.toString());
    }
    r.sendBuffer(data, flags);
}

// Notes what an answer says; one that is no JSON says nothing.
function read(r, text) {
    try {
        const answer = JSON.parse(text);
        r.variables.planning_result = word(answer.planning_result);
        r.variables.planning_note = word(answer.error || answer.notes);
    } catch (e) {
        return;
    }
}

// A result, note or error code as the desk writes them, or nothing.
function word(value) {
    return typeof value === 'string' && /^[A-Za-z_]+$/.test(value) ? value : '';
}

export default { pass };
