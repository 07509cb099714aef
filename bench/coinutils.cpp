// Reads a model and writes it again by CoinUtils, for bench/turns.py: coinutils FROM INPUT TO OUTPUT. FROM and TO are mps or lp.

#include <CoinLpIO.hpp>
#include <CoinMpsIO.hpp>
#include <CoinPackedMatrix.hpp>

#include <exception>
#include <string>
#include <vector>

namespace {

// MPS files name their objective, so it is not among the names that CoinLpIO is given.
int write_lp_of(CoinMpsIO &model, const char *path) {
    CoinLpIO writer;
    writer.messageHandler()->setLogLevel(0);
    std::vector<char> integer(model.getNumCols());
    for (int j = 0; j < model.getNumCols(); ++j)
        integer[j] = model.isInteger(j);
    std::vector<const char *> rows, columns;
    for (int i = 0; i < model.getNumRows(); ++i)
        rows.push_back(model.rowName(i));
    rows.push_back(model.getObjectiveName());
    for (int j = 0; j < model.getNumCols(); ++j)
        columns.push_back(model.columnName(j));
    writer.setLpDataWithoutRowAndColNames(*model.getMatrixByRow(), model.getColLower(), model.getColUpper(), model.getObjCoefficients(),
                                          integer.data(), model.getRowLower(), model.getRowUpper());
    writer.setLpDataRowAndColNames(rows.data(), columns.data());
    return writer.writeLp(path, 1e-9, 10, 17, true);
}

int write_mps_of(CoinLpIO &model, const char *path) {
    CoinMpsIO writer;
    writer.messageHandler()->setLogLevel(0);
    const char *integer = model.integerColumns();
    std::vector<char> none(model.getNumCols());
    writer.setMpsData(*model.getMatrixByCol(), model.getInfinity(), model.getColLower(), model.getColUpper(), model.getObjCoefficients(),
                      integer != nullptr ? integer : none.data(), model.getRowLower(), model.getRowUpper(), model.getColNames(),
                      model.getRowNames());
    return writer.writeMps(path, 0, 1, 1);
}

int convert(const std::string &from, const char *input, const std::string &to, const char *output) {
    if (from == "mps") {
        CoinMpsIO model;
        model.messageHandler()->setLogLevel(0);
        if (model.readMps(input, "") != 0)
            return 1;
        return to == "mps" ? model.writeMps(output, 0, 1, 1) : write_lp_of(model, output);
    }
    CoinLpIO model;
    model.messageHandler()->setLogLevel(0);
    model.readLp(input);
    return to == "lp" ? model.writeLp(output, 1e-9, 10, 17, true) : write_mps_of(model, output);
}

} // namespace

int main(int count, char **words) {
    if (count != 5)
        return 3;
    try {
        return convert(words[1], words[2], words[3], words[4]) == 0 ? 0 : 1;
    } catch (const CoinError &error) {
        return 2;
    } catch (const std::exception &error) {
        return 2;
    }
}
