// What the page asks of the server on this computer.
export class Gone extends Error {}
export class Refused extends Error {
  constructor(told) { super(told.says); this.told = told; }
}

const under = new Map(); // of each sort of request the one that is under way: a newer one ends it
export const post = async (name, value, sort = null) => {
  const stop = new AbortController();
  if (sort) { under.get(sort)?.abort(); under.set(sort, stop); }
  let answer;
  try {
    answer = await fetch(name, { method: "POST", headers: { "Content-Type": "application/json" }, body: JSON.stringify(value), signal: stop.signal });
  } catch (error) {
    if (error.name === "AbortError") throw error;
    throw new Gone("The workbench's server doesn't answer.");
  }
  if (answer.status === 409) throw new DOMException("sooner", "AbortError");
  if (answer.status === 403) throw new Gone("The server is another one now.");
  if (!answer.ok) throw new Refused(await answer.json().catch(() => ({ says: `status ${answer.status}` })));
  return answer;
};
export const ask = async (name, value, sort = null) => (await post(name, value, sort)).json();
export const isStale = (error) => error.name === "AbortError";
