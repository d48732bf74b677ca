# Joins by the program rjoin, for scripts in Ruby and DRC; KLayout's Python does the work.
#
#     require "rjoin"
#     Rjoin.select(metal, "contains_properly", vias)   # as Region#covering; relations of rjoin
#     Rjoin.space(metal, metal, 200)                   # edge pairs, as Region#space_check
#     Rjoin.enclosing(metal, vias, 100)                # edge pairs, as Region#enclosing_check
#
# In a DRC script, layers have the same calls:
#
#     input(1, 0).rjoin_select("contains_properly", input(2, 0)).output("metal with a via")
#     input(1, 0).rjoin_space(0.2).output("closer than 0.2 um")
#     input(1, 0).rjoin_enclosing(input(2, 0), 0.1).output("less than 0.1 um around a via")
require "json"
require "tmpdir"

# Calls on regions.
module Rjoin
  PACKAGE = File.expand_path("../python", __dir__)

  # The areas of a region that stand in a relation, or fit a mask, to some area of another.
  def self.select(left, relation, right)
    shapes = answer(left, right, { "relation" => relation })
    RBA::Region.new(shapes.collect { |text| RBA::Polygon.from_s(text) })
  end

  # The narrow places between areas of two regions, or of one with itself, that share no point and
  # are closer than a number of database units.
  def self.space(left, right, limit)
    edge_pairs(left, right, { "space" => limit.to_s })
  end

  # The narrow places between the outlines of areas of a region and areas of another that lie in
  # these and are closer to the outlines than a number of database units.
  def self.enclosing(left, right, limit)
    edge_pairs(left, right, { "enclosing" => limit.to_s })
  end

  # The lines that the Python package answers, as edge pairs.
  def self.edge_pairs(left, right, condition)
    RBA::EdgePairs.new(answer(left, right, condition).collect { |text| RBA::EdgePair.from_s(text) })
  end

  # The lines that the Python package answers.
  def self.answer(left, right, condition)
    Dir.mktmpdir("rjoin-") do |folder|
      write_layers(folder, left, right)
      request = { "second" => left.equal?(right) ? "1/0" : "2/0",
                  "merged" => left.merged_semantics?, "condition" => condition }
      File.write(File.join(folder, "request"), JSON.generate(request))
      run("from rjoin_klayout import regions\nregions.answer(#{folder.to_json})\n")
      fault = File.join(folder, "fault")
      raise File.read(fault, :encoding => "utf-8") if File.exist?(fault)
      File.readlines(File.join(folder, "answer"), :chomp => true)
    end
  end

  # Writes both regions as layers of a file.
  def self.write_layers(folder, left, right)
    layout = RBA::Layout.new
    cell = layout.create_cell("TOP")
    [left, right].each_with_index do |region, number|
      cell.shapes(layout.layer(number + 1, 0)).insert(region)
    end
    layout.write(File.join(folder, "layers.oas"))
  end

  # Runs a text by KLayout's Python, which finds the package beside this file.
  def self.run(text)
    macro = RBA::Macro.new
    macro.interpreter = RBA::Macro::Python
    macro.text = "import sys\nsys.path.insert(0, #{PACKAGE.to_json})\n#{text}"
    macro.run
  end

  private_class_method :edge_pairs, :answer, :write_layers, :run
end

if defined?(DRC::DRCLayer)
  # The same calls for the layers of a DRC script.
  class DRC::DRCLayer
    def rjoin_select(relation, other)
      DRC::DRCLayer.new(@engine, Rjoin.select(data, relation, other.data))
    end

    def rjoin_space(spacing, other = self)
      DRC::DRCLayer.new(@engine, Rjoin.space(data, other.data, rjoin_units(spacing)))
    end

    def rjoin_enclosing(other, distance)
      DRC::DRCLayer.new(@engine, Rjoin.enclosing(data, other.data, rjoin_units(distance)))
    end

    private

    # A distance is in micrometres if it is a float, else in database units, as everywhere in DRC.
    def rjoin_units(distance)
      distance.is_a?(Float) ? (0.5 + distance / @engine.dbu).floor : distance
    end
  end
end
