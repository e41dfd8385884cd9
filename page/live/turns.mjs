// What the page does one after another: a press while a run is under way waits for its end, and none is lost.
export class Turns {
  #last = Promise.resolve();
  #count = 0; // of those that are under way or wait
  #series = 0;
  #changes;
  #fails;

  // What is told whether anything is under way, each time that this changes, and what is told an error.
  constructor(changes, fails) {
    this.#changes = changes;
    this.#fails = fails;
  }

  // Does it behind all that was taken before. It is given whether it waited.
  take(does) {
    const hasWaited = this.#count > 0, series = this.#series;
    this.#count += 1;
    this.#changes(true);
    this.#last = this.#last.then(() => series === this.#series ? does(hasWaited) : undefined)
      .catch(this.#fails)
      .then(() => {
        this.#count -= 1;
        this.#changes(this.#count > 0);
      });
    return this.#last;
  }

  // Does none of those that wait; gives how many they are.
  drop() {
    this.#series += 1;
    return Math.max(0, this.#count - 1);
  }
}
