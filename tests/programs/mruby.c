/* mruby: mrb_open_allocf, whose hook has a context. A program of Ruby is compiled and run: objects, closures, texts, ranges, hashes,
 * exceptions, and what its collector takes back. */
#include "harness.h"

#include <mruby.h>
#include <mruby/compile.h>
#include <mruby/string.h>
#include <mruby/version.h>
#include <string.h>

const char program_name[] = "mruby";

const char *program_version(void) { return MRUBY_VERSION; }

static const char source[] =
    "class Node\n"
    "  attr_reader :key, :value, :rest\n"
    "  def initialize(k, rest); @key = \"k#{k}\"; @value = k * 3 / 7.0; @tags = [k % 5, k.to_s, {deep: k}]; @rest = rest; end\n"
    "end\n"
    "list = nil\n"
    "by_key = {}\n"
    "3000.times { |k| list = Node.new(k, list); by_key[list.key] = list; by_key.delete(\"k#{k >> 1}\") if k % 3 == 0 }\n"
    "say \"keys #{by_key.size}\"\n"
    "sum = 0\n"
    "node = list\n"
    "while node; sum += node.value; node = node.rest; end\n"
    "say \"sum #{sum.to_i}\"\n"
    "counters = (0...300).map { |k| at = k; lambda { at += 1 } }\n"
    "say \"counted #{counters.map { |count| count.call }.inject { |a, b| a + b }}\"\n"
    "text = ''\n"
    "3000.times { |k| text << \"word#{k * 7919 % 1009}\" << (k % 11 == 0 ? ',' : ' ') }\n"
    "words = text.gsub(',', ' ').split(' ')\n"
    "say \"#{words.size} words, #{words.uniq.size} kinds, #{words.sort[100, 10].join(' ')}\"\n"
    "groups = {}\n"
    "words.each_with_index { |word, k| (groups[word.size] ||= []) << [word, k] }\n"
    "say groups.keys.sort.map { |size| \"#{size}: #{groups[size].size}\" }.join(', ')\n"
    "2000.times { |k| a = [k]; b = {other: a}; a << b }\n"
    "caught = 0\n"
    "200.times { |k| begin; raise ArgumentError, \"no #{k}\" if k.odd?; nil.none; rescue ArgumentError, NoMethodError => e; caught += "
    "e.message.size; end }\n"
    "say \"caught #{caught}\"\n"
    "say by_key.values.map { |it| it.key }.reverse[0, 40].inspect\n";

static void *change(mrb_state *ruby, void *p, size_t n, void *context) {
    (void)ruby, (void)context;
    if (n != 0) return hook_realloc(p, n);
    hook_free(p);
    return NULL;
}

static mrb_value say_text(mrb_state *ruby, mrb_value self) {
    const char *text = NULL;
    (void)self;
    mrb_get_args(ruby, "z", &text);
    say("%s\n", text);
    return mrb_nil_value();
}

bool program_work(const char *file) {
    (void)file;
    mrb_state *ruby = mrb_open_allocf(change, NULL);
    if (ruby == NULL) return false;
    mrb_define_method(ruby, ruby->kernel_module, "say", say_text, MRB_ARGS_REQ(1));
    mrb_load_string(ruby, source);
    const bool all = ruby->exc == NULL;
    mrb_close(ruby);
    return all;
}
