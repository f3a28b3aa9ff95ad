// A FIFO of four bytes between a fast writer and a slow reader, traced by SystemC.
#include <systemc.h>

SC_MODULE(Fifo) {
    sc_in<bool> clk, push, pop;
    sc_in<sc_uint<8>> data_in;
    sc_out<sc_uint<8>> data_out;
    sc_out<bool> full, empty;
    sc_signal<sc_uint<3>> used;
    sc_uint<8> slots[4];
    unsigned first = 0;

    void step() {
        unsigned n = used.read();
        bool take = pop.read() && n > 0, put = push.read() && n < 4;
        if (put) slots[(first + n) % 4] = data_in.read();
        if (take) {
            data_out = slots[first];
            first = (first + 1) % 4;
        }
        n += put - take;
        used = n;
        full = n == 4;
        empty = n == 0;
    }

    SC_CTOR(Fifo) {
        SC_METHOD(step);
        sensitive << clk.pos();
        dont_initialize();
    }
};

int sc_main(int, char **) {
    sc_clock clk("clk", 10, SC_NS);
    sc_signal<bool> push("push"), pop("pop"), full("full"), empty("empty");
    sc_signal<sc_uint<8>> data_in("data_in"), data_out("data_out");
    sc_signal_rv<4> bus("bus");
    double fill = 0;

    Fifo fifo("fifo");
    fifo.clk(clk); fifo.push(push); fifo.pop(pop); fifo.data_in(data_in);
    fifo.data_out(data_out); fifo.full(full); fifo.empty(empty);

    sc_trace_file *trace = sc_create_vcd_trace_file("capture");
    trace->set_time_unit(1, SC_NS);
    sc_trace(trace, clk, "clk");
    sc_trace(trace, push, "top.push");
    sc_trace(trace, pop, "top.pop");
    sc_trace(trace, data_in, "top.data_in");
    sc_trace(trace, data_out, "top.fifo.data_out");
    sc_trace(trace, fifo.used, "top.fifo.used");
    sc_trace(trace, full, "top.fifo.full");
    sc_trace(trace, empty, "top.fifo.empty");
    sc_trace(trace, bus, "top.bus");
    sc_trace(trace, fill, "top.fill");

    for (int i = 0; i < 16; ++i) {
        push = i < 8;
        pop = i % 3 == 2 || i > 10;
        data_in = 0x41 + i;
        bus = i < 4 ? "ZZZZ" : i < 8 ? "01XZ" : "1100";
        fill = i / 16.0;
        sc_start(10, SC_NS);
    }
    sc_close_vcd_trace_file(trace);
    return 0;
}
