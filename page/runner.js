// Runs command lines in a worker, one behind the other.

class Runner {
    constructor(program, source) {
        Object.assign(this, { program, source, worker: null, waiting: null, number: 0 });
    }

    begin() {
        this.worker = new Worker(this.source);
        this.worker.onmessage = ({ data }) => {
            if (!this.waiting || data.number !== this.waiting.number) return;
            const { done, failed } = this.waiting;
            this.waiting = null;
            if (data.failed) failed(new Error(data.failed));
            else done(data.result);
        };
        this.worker.postMessage({ program: this.program });
    }

    // What the program prints for these words with this text as its input: { status, output, errors }. A run that isn't done
    // stands in the way, and is ended.
    ask(words, text) {
        this.stop("another run began");
        if (this.worker === null) this.begin();
        this.number += 1;
        return new Promise((done, failed) => {
            this.waiting = { number: this.number, done, failed };
            this.worker.postMessage({ number: this.number, words, text });
        });
    }

    // Ends the run with its worker: nothing else stops a computation.
    stop(why) {
        if (!this.waiting) return;
        const { failed } = this.waiting;
        this.waiting = null;
        this.worker.terminate();
        this.worker = null;
        failed(Object.assign(new Error(why), { isStopped: true }));
    }
}
